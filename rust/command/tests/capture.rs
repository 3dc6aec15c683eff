//! `capture`: the trace of a logic analyser's capture, by VCD, .sr and CSV, is the one that the words of
//! docs/COMMAND.md make of the samples; and a run on it finds where chip and model disagree.

mod common;

use common::bus::{bytes, events, I2c, Spi};
use common::chip::{captured, map, Bench, Seen};
use common::command::{ended, sildrokk, Ended};
use common::judged::{agrees, run};
use common::many;
use common::played::{played, steps};
use common::random::Random;
use common::report::Report;
use common::scratch::{bytes_of, text, Scratch};
use common::sigrok::converted;
use common::vcd::Capture;
use common::wanted::Wanted;
use sildrokk::trace::{i2c, spi, Event};
use sildrokk::{Answer, Bus, Part};
use std::path::{Path, PathBuf};

/// `capture` of a file into `a.trace` of the folder.
fn capture(scratch: &Scratch, part: Part, file: &Path, words: &[&str]) -> Ended {
    let mut command = sildrokk(["capture", part.name(), text(file), "-o"]);
    command.arg(scratch.path("a.trace")).args(words);
    ended(&mut command)
}

/// What a host did, and the addresses of which it read bytes.
#[derive(Default)]
struct Done {
    events: Vec<Event>,
    read: Vec<usize>,
}

/// Selections of every kind that the part answers, with some that it does not.
fn spi_host(part: Part, random: &mut Random) -> Done {
    let (mut host, mut read) = (Spi::on(), Vec::new());
    for _ in 0..random.within(3..12) {
        let (at, count) = (random.within(0..part.size()), random.within(1..6));
        let address = &at.to_be_bytes()[if part == Part::Mr45v032a { 6 } else { 5 }..];
        match random.within(0..6) {
            0 => host.store(address, &random.bytes(count)),
            1 => host.load(address, count),
            2 => host.select(&[0x05, 0, 0]),
            3 => host.select(&random.bytes(count)),
            4 => held(&mut host, address),
            _ => host.held ^= spi::WP,
        }
        read.extend((0..count).map(|more| (at + more) % part.size()));
    }
    Done {
        events: host.events,
        read,
    }
}

/// A READ that is held for a while, in which SCK moves.
fn held(host: &mut Spi, address: &[u8]) {
    host.sample(0);
    let head = [&[0x03], address, &[0]].concat();
    host.bits(&head, 8 * head.len() - 3);
    host.sample(0);
    host.held ^= spi::HOLD;
    host.sample(0);
    host.sample(spi::SCK);
    host.sample(0);
    host.held ^= spi::HOLD;
    host.sample(0);
    host.bits(&[0], 8);
    host.sample(0);
    host.sample(spi::CS);
}

/// Transfers with the part and with others, some of which are broken off.
fn i2c_host(part: Part, pins: u8, start: u32, random: &mut Random) -> Done {
    let (mut host, mut read) = (I2c::on(start), Vec::new());
    let shift = if part == Part::Mr44v064b { 1 } else { 2 };
    let own = 0xa0 | pins << shift;
    for _ in 0..random.within(2..10) {
        let (address, count) = (random.number() as u16, random.within(1..5));
        match random.within(0..6) {
            0 => host.store(own, address, &random.bytes(count)),
            1 => host.load(own, address, count),
            2 => host.load_on(own, count),
            3 => host.load(own ^ 8, address, count),
            4 => broken_off(&mut host, own, random),
            _ => host.held ^= i2c::WP,
        }
        read.extend((0..count).map(|more| (usize::from(address) + more) % part.size()));
    }
    Done {
        events: host.events,
        read,
    }
}

/// A few bits of a word, and STOP.
fn broken_off(host: &mut I2c, word: u8, random: &mut Random) {
    host.start();
    (0..random.within(0..7)).for_each(|place| host.bit(word << place & 0x80 != 0));
    host.stop();
}

/// A capture of the host's events on a chip, and what it is to become.
struct Taken {
    bench: Bench,
    seen: Vec<Seen>,
    read: Vec<usize>,
    wanted: Wanted,
}

fn taken(part: Part, answers: bool, seed: u64) -> Taken {
    let mut bench = Bench::of(part, seed);
    let start = bench.random.within(0..part.size()) as u32;
    bench.made.pins = bench.random.within(0..part.max_pins() as usize + 1) as u32;
    let pins = bench.made.pins;
    let done = match part.bus() {
        Bus::Spi => spi_host(part, &mut bench.random),
        Bus::I2c => i2c_host(part, pins as u8, start, &mut bench.random),
    };
    let seen = bench.seen(&done.events);
    let wanted = Wanted {
        part,
        pins,
        start,
        answers,
        power: false,
    };
    Taken {
        bench,
        seen,
        read: done.read,
        wanted,
    }
}

impl Taken {
    /// The words that the map and the part need.
    fn words(&self) -> Vec<String> {
        let map = map(self.wanted.part, self.wanted.answers, self.wanted.power);
        let mut words = vec!["--map".into(), map, format!("--pins={}", self.wanted.pins)];
        let i2c = self.wanted.part.bus() == Bus::I2c;
        words.extend(i2c.then(|| format!("--start={}", self.wanted.start)));
        words
    }

    fn capture(&mut self) -> Capture {
        captured(self.wanted.part, &self.seen, &mut self.bench.random)
    }

    /// That `capture` of the file makes the trace that it is to, and tells of it.
    #[track_caller]
    fn becomes_its_trace(&self, scratch: &Scratch, file: &Path, format: &[&str]) {
        let words = self.words();
        let words: Vec<&str> = words
            .iter()
            .map(String::as_str)
            .chain(format.iter().copied())
            .collect();
        let told = capture(scratch, self.wanted.part, file, &words).well();
        let meant = self.wanted.trace(&self.seen);
        let found = events(&bytes_of(&scratch.path("a.trace")));
        let differ = meant
            .iter()
            .zip(&found)
            .position(|(meant, found)| meant != found);
        assert_eq!(
            differ,
            None,
            "of {} and {} events",
            meant.len(),
            found.len()
        );
        assert_eq!(found.len(), meant.len());
        self.tells(&Report::of(&told.out), &meant);
    }

    #[track_caller]
    fn tells(&self, report: &Report, trace: &[Event]) {
        let count = |of: fn(&Event) -> bool| trace.iter().filter(|it| of(it)).count() as u64;
        let on = count(|it| matches!(it, Event::SpiPowerOn { .. } | Event::I2cPowerOn { .. }));
        let (off, answers) = (
            count(|it| *it == Event::PowerOff),
            count(|it| matches!(it, Event::Expected(_))),
        );
        let samples = count(|it| matches!(it, Event::Sample(_)));
        let all = self.seen.len() as u64;
        let channels = common::chip::wires(self.wanted.part.bus()).len() as u64 + 3;
        assert_eq!(report.numbers("read"), [all, channels]);
        assert_eq!(report.numbers("kept"), [on, samples, off]);
        assert_eq!(report.numbers("dropped")[0], all - on - samples - off);
        assert_eq!(report.numbers("trace"), [bytes(trace).len() as u64]);
        if self.wanted.answers {
            assert_eq!(report.numbers("answers"), [answers]);
        }
    }
}

/// The file in each format, with what sigrok-cli has to be told of it.
fn formats(scratch: &Scratch, capture: &Capture) -> Vec<(PathBuf, Vec<&'static str>)> {
    let vcd = scratch.file("a.vcd", capture.vcd());
    let own_csv = scratch.file("own.csv", capture.csv());
    let (sr, csv) = (scratch.path("a.sr"), scratch.path("a.csv"));
    converted(&vcd, &sr, "srzip");
    converted(&sr, &csv, "csv:label=channel:header=false");
    vec![
        (vcd, vec![]),
        (sr, vec![]),
        (csv, vec!["--format", "csv"]),
        (own_csv, vec!["--format", "csv:column_formats=*l"]),
    ]
}

/// Every part, with and without answers, by every format: the trace is the same.
#[test]
fn every_format_on_every_part() {
    let cases = Part::ALL
        .into_iter()
        .flat_map(|part| [(part, false), (part, true)]);
    cases.for_each(|(part, answers)| by_every_format(part, answers));
}

fn by_every_format(part: Part, answers: bool) {
    let scratch = Scratch::new();
    let mut taken = taken(part, answers, 50 + u64::from(part.number()));
    let capture = taken.capture();
    for (file, format) in formats(&scratch, &capture) {
        taken.becomes_its_trace(&scratch, &file, &format);
    }
}

#[test]
fn many_captures() {
    for seed in 0..many(100, 10) as u64 {
        println!("seed {seed}");
        let scratch = Scratch::new();
        let mut random = Random::of(seed);
        let mut taken = taken(random.one_of(&Part::ALL), !random.once_in(4), seed);
        let file = scratch.file("a.vcd", taken.capture().vcd());
        taken.becomes_its_trace(&scratch, &file, &[]);
    }
}

/// A run on the trace, with the memory that the chip had, accepts every event; with one of which a byte
/// is another it ends with 9 where that byte is first seen.
#[test]
fn a_run_finds_where_chip_and_model_disagree() {
    let mut disagreed = 0;
    for seed in 100..100 + many(60, 10) as u64 {
        println!("seed {seed}");
        let scratch = Scratch::new();
        let mut taken = taken(Random::of(seed).one_of(&Part::ALL), true, seed);
        let file = scratch.file("a.vcd", taken.capture().vcd());
        let words = taken.words();
        let words: Vec<&str> = words.iter().map(String::as_str).collect();
        capture(&scratch, taken.wanted.part, &file, &words).well();
        let trace = bytes_of(&scratch.path("a.trace"));
        disagreed += usize::from(agree_or_not(&scratch, &taken, &trace));
    }
    assert!(
        disagreed > 20,
        "only {disagreed} have read what was changed"
    );
}

/// With the chip's memory all is well. Then one byte that was read is another; whether there was one.
fn agree_or_not(scratch: &Scratch, taken: &Taken, trace: &[u8]) -> bool {
    let made = taken.bench.made.clone();
    let memory = scratch.file("chip.bin", &made.memory);
    let well = played(&made, trace, u64::MAX);
    assert_eq!(well.number(), 0, "what the chip did is what the model does");
    agrees(
        run(&made, trace, &["--memory", text(&memory)]),
        &made,
        trace,
        &well,
    );

    let other = |address: &usize| {
        let mut made = made.clone();
        made.memory[*address] ^= 1 << (address % 8);
        made
    };
    let mut others = taken.read.iter().map(other);
    let Some(other) = others.find(|it| played(it, trace, u64::MAX).number() != 0) else {
        return false; // none of them was read, or only after it was written
    };
    let after = played(&other, trace, u64::MAX);
    assert_eq!(after.number(), 9);
    let memory = scratch.file("other.bin", &other.memory);
    agrees(
        run(&other, trace, &["--memory", text(&memory)]),
        &other,
        trace,
        &after,
    );
    true
}

/// The very place: bit by bit of a byte that the chip had otherwise.
#[test]
fn the_first_bit_that_differs() {
    for (part, byte, bit) in [
        (0, 0, 0),
        (0, 0, 7),
        (0, 2, 3),
        (3, 0, 0),
        (3, 1, 7),
        (3, 2, 4),
    ] {
        let part = Part::of_number(part).unwrap();
        let scratch = Scratch::new();
        let mut bench = Bench::of(part, 7);
        let (mut spi, mut i2c) = (Spi::on(), I2c::on(0));
        spi.load(&[0x01, 0x23], 3);
        i2c.load(0xa0, 0x0123, 3);
        let done = if part.bus() == Bus::Spi {
            spi.events
        } else {
            i2c.events
        };
        let seen = bench.seen(&done);
        let file = scratch.file("a.vcd", captured(part, &seen, &mut bench.random).vcd());
        capture(&scratch, part, &file, &["--map", &map(part, true, false)]).well();
        let trace = bytes_of(&scratch.path("a.trace"));
        bench.made.memory[0x123 + byte] ^= 0x80 >> bit;
        let memory = scratch.file("chip.bin", &bench.made.memory);
        let told = run(&bench.made, &trace, &["--memory", text(&memory)]).with(1);
        let report = Report::of(&told.out);
        let refused = report.numbers("event")[0] as usize;
        assert!(report.line("ended").starts_with("9: "));
        assert_eq!(
            clocks(part, &events(&trace)[..=refused]),
            before_byte(part) + 8 * byte + bit
        );
    }
}

/// How many bits of the bus had gone by before the last event: on SPI the expected answer stands before
/// its rise and on I2C before its fall. Acknowledges are left out.
fn clocks(part: Part, events: &[Event]) -> usize {
    let sample = |event: &Event| match event {
        Event::Sample(sample) => Some(*sample),
        _ => None,
    };
    let samples: Vec<u8> = events.iter().filter_map(sample).collect();
    let clock = if part.bus() == Bus::Spi {
        spi::SCK
    } else {
        i2c::SCL
    };
    let rises = samples
        .windows(2)
        .filter(|two| two[0] & clock == 0 && two[1] & clock != 0)
        .count();
    match part.bus() {
        Bus::Spi => rises,
        // The rise that is the last bit's; the one before the second START; nine to each byte.
        Bus::I2c => (rises - 2) / 9 * 8 + (rises - 2) % 9,
    }
}

/// Opcode and address; or word, address and word.
fn before_byte(part: Part) -> usize {
    8 * if part.bus() == Bus::Spi { 3 } else { 4 }
}

/// A host that now and then has a wire at a wrong level, for one sample or from then on.
fn crooked(events: &[Event], wires: u8, random: &mut Random) -> Vec<Event> {
    let mut wrong = 0;
    let mut bend = |event: &Event| match event {
        Event::Sample(sample) => {
            let now = if random.once_in(40) {
                1 << random.within(0..wires.into())
            } else {
                0
            };
            wrong ^= if random.once_in(200) { now } else { 0 };
            Event::Sample(sample ^ now ^ wrong)
        }
        other => *other,
    };
    events.iter().map(&mut bend).collect()
}

/// The trace of a capture of what a host did, with the part's output mapped, is the one that the samples
/// mean; it.
#[track_caller]
fn meant(part: Part, bench: &mut Bench, done: &[Event]) -> Vec<u8> {
    let scratch = Scratch::new();
    let seen = bench.seen(done);
    let file = scratch.file("a.vcd", captured(part, &seen, &mut bench.random).vcd());
    capture(&scratch, part, &file, &["--map", &map(part, true, false)]).well();
    let trace = bytes_of(&scratch.path("a.trace"));
    let wanted = Wanted::of(part, true, false);
    assert_eq!(events(&trace), wanted.trace(&seen));
    trace
}

/// Whatever a host does on SPI, a run on the capture of a chip that does what the model does is well.
#[test]
fn crooked_hosts_on_spi() {
    for seed in 1_000..1_000 + many(60, 10) as u64 {
        println!("seed {seed}");
        let part = Random::of(seed).one_of(&Part::ALL[..3]);
        let mut bench = Bench::of(part, seed);
        let done = spi_host(part, &mut bench.random).events;
        let done = crooked(&done, 5, &mut bench.random);
        let trace = meant(part, &mut bench, &done);
        assert_eq!(played(&bench.made, &trace, u64::MAX).number(), 0);
    }
}

/// On I2C the trace is the one that the words say, whatever the host does.
#[test]
fn crooked_hosts_on_i2c() {
    for seed in 2_000..2_000 + many(60, 10) as u64 {
        println!("seed {seed}");
        let part = Random::of(seed).one_of(&Part::ALL[3..]);
        let mut bench = Bench::of(part, seed);
        let done = i2c_host(part, 0, 0, &mut bench.random).events;
        let done = crooked(&done, 3, &mut bench.random);
        meant(part, &mut bench, &done);
    }
}

/// `out` may be a channel that shows the part's pull and nothing else, as behind a buffer with a wire for
/// each direction: what chip and model disagree on is found all the same.
#[test]
fn a_channel_of_the_pull_alone() {
    let (part, mut host) = (Part::Mr44v064b, I2c::on(0));
    host.load(0xa0, 0x0123, 3);
    let mut bench = Bench::of(part, 8);
    bench.often = false;
    let steps = steps(&bench.made, &bytes(&host.events));
    let mut seen = bench.seen(&host.events);
    for (one, step) in seen.iter_mut().zip(&steps) {
        one.answer = step.answer != Answer::Low;
    }
    let scratch = Scratch::new();
    let file = scratch.file("a.vcd", captured(part, &seen, &mut bench.random).vcd());
    capture(&scratch, part, &file, &["--map", &map(part, true, false)]).well();
    let trace = bytes_of(&scratch.path("a.trace"));
    assert_eq!(played(&bench.made, &trace, u64::MAX).number(), 0);
    let numbers = (0..8).map(|bit| {
        let mut other = bench.made.clone();
        other.memory[0x124] ^= 1 << bit;
        played(&other, &trace, u64::MAX).number()
    });
    assert_eq!(numbers.collect::<Vec<u8>>(), [9; 8]);
}

/// A host that ends a read by STOP after it has acknowledged: SDA is low at the rise of that clock, and
/// no bit ends there.
#[test]
fn a_stop_after_an_acknowledge() {
    let (part, scratch) = (Part::Mr44v064b, Scratch::new());
    let mut bench = Bench::of(part, 9);
    bench.made.memory[..2].copy_from_slice(&[0x5a, 0xff]);
    let mut host = I2c::on(0);
    host.start();
    host.put(0xa1);
    host.get(true);
    host.stop();
    let seen = bench.seen(&host.events);
    let file = scratch.file("a.vcd", captured(part, &seen, &mut bench.random).vcd());
    capture(&scratch, part, &file, &["--map", &map(part, true, false)]).well();
    let trace = bytes_of(&scratch.path("a.trace"));
    assert_eq!(events(&trace), Wanted::of(part, true, false).trace(&seen));
    assert_eq!(played(&bench.made, &trace, u64::MAX).number(), 0);
}
