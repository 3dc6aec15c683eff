//! Every number that a run can give: what the report says of the refused event, wherever it falls in the
//! pieces in which the command reads.

mod common;

use common::bus::{Spi, I2C_REST, SPI_REST};
use common::command::{ended, fed_by, sildrokk};
use common::judged::{agrees, run, run_command};
use common::many;
use common::played::{played, Made};
use common::random::Random;
use common::scratch::{text, Scratch};
use sildrokk::trace::Event;
use sildrokk::{Bus, Part};
use std::io::Write;

/// A refused event behind events that are accepted: its number, and its bytes.
type Case = (u8, &'static [u8]);

/// Behind a power on, and with the part not driving anything.
const SPI_CASES: [Case; 9] = [
    (4, &[0x00]),
    (4, &[0x06, 0x18]),
    (4, &[0x02, 0x03, 0x00, 0x00, 0x00]),
    (5, &[0x04]),
    (6, &[0x04, 0x20]),
    (6, &[0x01, 0xff]),
    (8, &[0x01, 0x19]),
    (9, &[0x05, 0x00]),
    (11, &[0x05, 0x03]),
];

/// Behind a power off.
const SPI_OFF_CASES: [Case; 6] = [
    (7, &[0x03]),
    (7, &[0x04, 0x19]),
    (7, &[0x05, 0x02]),
    (5, &[0x01]),
    (5, &[0x05]),
    (6, &[0x04, 0x20]),
];

const I2C_CASES: [Case; 9] = [
    (4, &[0xff]),
    (4, &[0x01, 0x03]),
    (5, &[0x02, 0x03, 0x00, 0x00]),
    (5, &[0x04]),
    (6, &[0x04, 0x08]),
    (6, &[0x02, 0x08, 0x00, 0x20, 0x00]),
    (8, &[0x02, 0x03, 0x00, 0x00, 0x00]),
    (9, &[0x05, 0x01]),
    (11, &[0x05, 0xff]),
];

const I2C_OFF_CASES: [Case; 7] = [
    (7, &[0x03]),
    (7, &[0x04, 0x03]),
    (7, &[0x05, 0x02]),
    (5, &[0x02]),
    (5, &[0x02, 0x03, 0x00]),
    (10, &[0x02, 0x03, 0x04, 0x00, 0x00]),
    (6, &[0x02, 0xff, 0x04, 0x00, 0x00]),
];

fn power_on(part: Part) -> Event {
    match part.bus() {
        Bus::Spi => Event::SpiPowerOn { sample: SPI_REST },
        Bus::I2c => Event::I2cPowerOn {
            sample: I2C_REST,
            start: 0,
        },
    }
}

/// The cases of a part, each with the trace that ends in it.
fn traces(part: Part) -> Vec<(u8, Vec<u8>)> {
    let (on, off) = match part.bus() {
        Bus::Spi => (&SPI_CASES[..], &SPI_OFF_CASES[..]),
        Bus::I2c => (&I2C_CASES[..], &I2C_OFF_CASES[..]),
    };
    let mut head = Vec::new();
    power_on(part).write(&mut head);
    let under_power = on
        .iter()
        .map(|(number, event)| (*number, [&head, *event].concat()));
    let cut = [&head[..], &[0x03]].concat();
    let without = off
        .iter()
        .map(|(number, event)| (*number, [&cut, *event].concat()));
    under_power.chain(without).collect()
}

#[test]
fn each_number_on_each_part() {
    let cases = Part::ALL.into_iter().flat_map(|part| {
        let case = move |(number, trace)| (part, number, trace);
        traces(part).into_iter().map(case)
    });
    for (part, number, trace) in cases {
        let made = Made::of(part);
        let after = played(&made, &trace, u64::MAX);
        assert_eq!(
            after.number(),
            number,
            "the case itself: {part} {trace:02x?}"
        );
        agrees(run(&made, &trace, &[]), &made, &trace, &after);
    }
}

/// The start address is refused from the part's size on.
#[test]
fn start_addresses_by_the_size() {
    let starts = |part: Part| [(part.size() - 1, 0), (part.size(), 10), (0xff_ffff, 10)];
    let cases = |part: Part| starts(part).map(|(start, number)| (part, start, number));
    for (part, start, number) in Part::ALL[3..].iter().flat_map(|part| cases(*part)) {
        let (mut trace, start) = (Vec::new(), start as u32);
        Event::I2cPowerOn {
            sample: I2C_REST,
            start,
        }
        .write(&mut trace);
        let (made, after) = (Made::of(part), played(&Made::of(part), &trace, u64::MAX));
        assert_eq!(after.number(), number);
        agrees(run(&made, &trace, &[]), &made, &trace, &after);
    }
}

/// The very first event may be the refused one, and nothing but a part of it be there.
#[test]
fn the_first_event() {
    let made = Made::of(Part::Mr45v032a);
    for trace in [
        &[0x04, 0x18][..],
        &[0x03],
        &[0x01],
        &[0x01, 0x20],
        &[0x07],
        &[0x05, 0x04],
        &[0x02],
    ] {
        let after = played(&made, trace, u64::MAX);
        assert_eq!((after.count, after.refusal.is_some()), (0, true));
        agrees(run(&made, trace, &[]), &made, trace, &after);
    }
}

/// Number 9 tells what was expected and what the part answers.
#[test]
fn another_answer_tells_both() {
    let mut host = Spi::on();
    host.load(&[0, 0], 1);
    // The first bit of 00h is on SO, before CS# rises and the last fall.
    let selection = host.trace();
    let driven = [&selection[..selection.len() - 2], &[0x05, 0x01]].concat();
    let rest = [&selection[..], &[0x05, 0x00]].concat();
    for (trace, expected, answer) in [(driven, "1", "0"), (rest, "0", "Z")] {
        let made = Made::of(Part::Mr45v032a);
        let after = played(&made, &trace, u64::MAX);
        assert_eq!(after.number(), 9);
        let report = agrees(run(&made, &trace, &[]), &made, &trace, &after);
        let told = report.lines("offset").join(" ");
        let words: Vec<&str> = told
            .split(|letter: char| !letter.is_ascii_alphanumeric())
            .collect();
        assert!(
            words.contains(&expected) && words.contains(&answer),
            "{told:?}"
        );
    }
}

/// Number 1 is bad use: what the part cannot have is never played.
#[test]
fn a_refused_making_is_bad_use() {
    let cases = [
        ("0", "--pins=1"),
        ("0", "--bits=1"),
        ("1", "--pins=1"),
        ("1", "--bits=8"),
        ("2", "--bits=8"),
        ("3", "--pins=8"),
        ("3", "--bits=1"),
        ("4", "--pins=4"),
        ("4", "--bits=1"),
        ("4", "--pins=4294967296"),
    ];
    for (part, word) in cases {
        let scratch = Scratch::new();
        let memory = scratch.path("chip.bin");
        let named = word[2..6].to_string();
        let told = ended(sildrokk(["run", part, "-", word, "--memory"]).arg(&memory));
        told.bad_words(&named);
        assert_eq!(scratch.names(), [""; 0], "{part} {word}");
    }
}

/// Number 3 is bad use too, and the file is as it was.
#[test]
fn a_memory_of_another_length_is_bad_use() {
    for length in [0, 1, 4095, 4097, 8192] {
        let scratch = Scratch::new();
        let memory = scratch.file("chip.bin", vec![7; length]);
        let trace = [0x01, 0x19];
        run(
            &Made::of(Part::Mr45v032a),
            &trace,
            &["--memory", text(&memory)],
        )
        .bad_use(&["chip.bin"]);
        assert_eq!(common::scratch::bytes_of(&memory), vec![7; length]);
    }
}

/// Accepted events of exactly so many bytes, which leave the part under power and at rest: samples, and
/// a power off and on where the number is odd.
fn filler(bytes: usize, random: &mut Random) -> Vec<u8> {
    let mut trace = vec![0x01, SPI_REST];
    let cuts = bytes % 2 + 2 * random.within(0..3);
    (0..cuts)
        .for_each(|_| trace.extend([0x04, SPI_REST & !1, 0x04, SPI_REST, 0x03, 0x01, SPI_REST]));
    assert!(trace.len() <= bytes && (bytes - trace.len()).is_multiple_of(2));
    let left = (bytes - trace.len()) / 2;
    (0..left).for_each(|at| trace.extend([0x04, [SPI_REST, SPI_REST & !1][at % 2]]));
    trace
}

/// Around every length that a reader may well take at once, the refused event is moved byte by byte over
/// the end of the piece.
#[test]
fn wherever_a_piece_ends_in_a_file() {
    let mut random = Random::of(10);
    let scratch = Scratch::new();
    let made = Made::of(Part::Mr45v032a);
    let lengths = (12..=21).flat_map(|power| (0..6).map(move |less| (1 << power) - less));
    for length in lengths {
        let (number, event) = random.one_of(&SPI_CASES);
        let trace = [&filler(length, &mut random)[..], event].concat();
        let after = played(&made, &trace, u64::MAX);
        assert_eq!((after.number(), after.taken()), (number, length as u64));
        let file = scratch.file("long.trace", &trace);
        let done = ended(sildrokk(["run", "0"]).arg(&file));
        agrees(done, &made, &trace, &after);
    }
}

/// The trace comes in pieces of any length, each as soon as the pipe takes it.
fn in_pieces(
    made: &Made,
    trace: &[u8],
    most: usize,
    random: &mut Random,
) -> common::command::Ended {
    let mut lengths = Random::of(random.number());
    fed_by(&mut run_command(made, &[]), move |mut pipe| {
        let mut left = trace;
        while !left.is_empty() {
            let (piece, rest) = left.split_at(lengths.within(1..most + 1).min(left.len()));
            if pipe.write_all(piece).is_err() {
                break; // it ended at the refused event
            }
            left = rest;
        }
    })
}

#[test]
fn wherever_a_piece_ends_in_a_pipe() {
    let mut random = Random::of(11);
    for round in 0..many(200, 10) {
        let part = random.one_of(&Part::ALL);
        let made = Made::of(part);
        let (number, ending) = random.one_of(&traces(part));
        let trace = [&cycles(part, &mut random)[..], &ending].concat();
        let after = played(&made, &trace, u64::MAX);
        assert_eq!(after.number(), number, "the case itself, round {round}");
        let most = random.one_of(&[1, 2, 7, 100, 5_000, 70_000]);
        agrees(
            in_pieces(&made, &trace, most, &mut random),
            &made,
            &trace,
            &after,
        );
    }
}

/// Whole histories from power on to power off, so that a case can follow.
fn cycles(part: Part, random: &mut Random) -> Vec<u8> {
    let limit = match part.bus() {
        Bus::Spi => 32,
        Bus::I2c => 8,
    };
    let mut trace = Vec::new();
    for _ in 0..random.within(1..40) {
        power_on(part).write(&mut trace);
        let samples = random.within(0..100);
        (0..samples).for_each(|_| trace.extend([0x04, random.byte() % limit]));
        trace.push(0x03);
    }
    trace
}

/// Bytes of any kind: where they are refused, and why, is the library's word.
#[test]
fn any_bytes_at_all() {
    let mut random = Random::of(12);
    for _ in 0..many(500, 10) {
        let part = random.one_of(&Part::ALL);
        let made = Made::of(part);
        let count = random.within(0..30);
        let noise = random
            .bytes(count)
            .into_iter()
            .map(|byte| byte % 9)
            .collect::<Vec<u8>>();
        let trace = [&cycles(part, &mut random)[..], &noise].concat();
        let after = played(&made, &trace, u64::MAX);
        agrees(
            in_pieces(&made, &trace, 50, &mut random),
            &made,
            &trace,
            &after,
        );
    }
}

/// A refused run ends at the refused event: it does not wait for more of the trace.
#[test]
fn a_refusal_does_not_wait_for_the_rest() {
    let mut running =
        common::command::Running::of(&mut run_command(&Made::of(Part::Mr45v032a), &[]));
    running
        .input
        .as_mut()
        .unwrap()
        .write_all(&[0x01, 0x19, 0x00])
        .unwrap();
    assert_eq!(running.waited().code(), Some(1));
}
