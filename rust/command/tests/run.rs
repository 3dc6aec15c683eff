//! `run`: the lines of its report, the memory that it makes and keeps, answers and quota.

mod common;

use common::bus::{I2c, Spi};
use common::command::{ended, sildrokk, Running};
use common::judged::{agrees, memory_agrees, more_agree, run, run_command};
use common::played::{played, Made};
use common::random::Random;
use common::report::{numbers, Report};
use common::scratch::{bytes_of, text, Scratch};
use common::walk::long_walk;
use sildrokk::trace::{spi, Event};
use sildrokk::Part;
use std::io::Write;
use std::time::Duration;

/// One enable and two writes, then what they left is read: WEL falls as the first write ends, so the second
/// is dropped.
fn story() -> Vec<u8> {
    let mut host = Spi::on();
    host.store(&[0, 0], &[0x11]);
    host.select(&[0x02, 0x00, 0x01, 0x22]);
    host.load(&[0, 0], 2);
    host.trace()
}

/// The example of docs/COMMAND.md.
const STORY: &str = "\
part      0, MR45V032A
ended     0: every event was accepted
count     237 events, 474 bytes
warnings  none
memory    1 of 4,096 bytes changed
          000000h  before  00 00 00 00 00 00 00 00 00 00 00 00 00 00 00 00
                   after   11 00 00 00 00 00 00 00 00 00 00 00 00 00 00 00
bits      0: SRWD 0, BP1 0, BP0 0
";

#[test]
fn a_story_word_by_word() {
    let ended = run(&Made::of(Part::Mr45v032a), &story(), &[]).well();
    assert_eq!(ended.out, STORY);
}

/// From a file as from standard input.
#[test]
fn a_file_is_played_as_standard_input_is() {
    let (scratch, trace) = (Scratch::new(), story());
    let file = scratch.file("story.trace", &trace);
    let by_file = ended(sildrokk(["run", "0"]).arg(file)).well();
    assert_eq!(
        by_file.out,
        run(&Made::of(Part::Mr45v032a), &trace, &[]).well().out
    );
}

#[test]
fn a_part_is_its_number_or_its_name() {
    let told = |word: &str| ended(&mut sildrokk(["run", word, "-"])).well().out;
    for part in Part::ALL {
        let by_number = told(&part.number().to_string());
        assert!(by_number.starts_with(&format!("part      {}, {part}", part.number())));
        assert_eq!(told(part.name()), by_number);
        assert_eq!(told(&part.name().to_lowercase()), by_number);
    }
}

/// Pins and saved bits are told if they are not 0; `agrees` has both sides of it.
#[test]
fn pins_and_bits_are_told() {
    let makings = [
        (1, 0, 5),
        (2, 0, 7),
        (1, 0, 0),
        (3, 6, 0),
        (4, 3, 0),
        (4, 0, 0),
    ];
    for (number, pins, bits) in makings {
        let part = Part::of_number(number).unwrap();
        let made = Made {
            pins,
            bits,
            ..Made::of(part)
        };
        agrees(
            run(&made, &[], &[]),
            &made,
            &[],
            &played(&made, &[], u64::MAX),
        );
    }
}

/// The part really has them: a word for these pins is acknowledged, and stores.
#[test]
fn pins_are_those_of_the_part() {
    let mut host = I2c::on(0);
    host.store(0xac, 0x0123, &[0x5a]);
    let (with, without) = (
        Made {
            pins: 6,
            ..Made::of(Part::Mr44v064b)
        },
        Made::of(Part::Mr44v064b),
    );
    let shown = |made: &Made| {
        let played = played(made, &host.trace(), u64::MAX);
        agrees(run(made, &host.trace(), &[]), made, &host.trace(), &played);
        played.memory[0x123]
    };
    assert_eq!((shown(&with), shown(&without)), (0x5a, 0));
}

#[test]
fn numbers_may_be_hexadecimal() {
    let trace = [0x02, 0x03, 0x00, 0x00, 0x00, 0x03];
    let decimal = Made {
        pins: 3,
        ..Made::of(Part::Ms85rc1mty)
    };
    let told = run(&decimal, &trace, &["--quota", "1"]).well().out;
    let mut words = sildrokk(["run", "4", "-", "--pins", "0x3", "--quota", "0x01"]);
    assert_eq!(common::command::fed(&mut words, &trace).well().out, told);
}

#[test]
fn no_event_at_all() {
    let made = Made::of(Part::Mr45v200b);
    let report = agrees(
        run(&made, &[], &[]),
        &made,
        &[],
        &played(&made, &[], u64::MAX),
    );
    let lines = ["part", "ended", "count", "warnings", "memory", "bits"];
    assert_eq!(report.labels(), lines);
}

/// SRWD, BP1 and BP0 stay on a part that saves them, under power and without it.
#[test]
fn saved_bits_are_what_a_cut_leaves() {
    for (part, cut) in [
        (0, false),
        (0, true),
        (1, false),
        (1, true),
        (2, false),
        (2, true),
    ] {
        let made = Made::of(Part::of_number(part).unwrap());
        let mut host = Spi::on();
        host.protect(0b101);
        cut.then(|| host.off());
        let report = agrees(
            run(&made, &host.trace(), &[]),
            &made,
            &host.trace(),
            &played(&made, &host.trace(), u64::MAX),
        );
        let kept = if part == 0 {
            "0: SRWD 0, BP1 0, BP0 0"
        } else {
            "5: SRWD 1, BP1 0, BP0 1"
        };
        assert_eq!(report.line("bits"), kept);
    }
}

/// A missing memory file is made with zeros, also where nothing is played.
#[test]
fn a_memory_is_made() {
    for part in Part::ALL {
        let scratch = Scratch::new();
        let file = scratch.path("chip.bin");
        run(&Made::of(part), &[], &["--memory", text(&file)]).well();
        assert_eq!(bytes_of(&file), vec![0; part.size()]);
        assert_eq!(scratch.names(), ["chip.bin"]);
    }
}

/// What one run stores the next one finds: it begins with the bytes of the file, whatever they are.
#[test]
fn a_memory_is_kept() {
    let scratch = Scratch::new();
    let first = Random::of(1).bytes(4096);
    let file = scratch.file("chip.bin", &first);
    let made = Made::with_memory(Part::Mr45v032a, first);
    let after = played(&made, &story(), u64::MAX);
    agrees(
        run(&made, &story(), &["--memory", text(&file)]),
        &made,
        &story(),
        &after,
    );
    assert_eq!(bytes_of(&file), after.memory);

    let mut host = Spi::on();
    host.store(&[0x0f, 0xff], &[0x77]);
    let made = Made {
        memory: after.memory,
        ..made
    };
    let after = played(&made, &host.trace(), u64::MAX);
    agrees(
        run(&made, &host.trace(), &["--memory", text(&file)]),
        &made,
        &host.trace(),
        &after,
    );
    assert_eq!(bytes_of(&file), after.memory);
    assert_eq!((after.memory[0], after.memory[0xfff]), (0x11, 0x77));
}

/// Of a refused run the events before the refused one stand, in the file too.
#[test]
fn a_refused_run_keeps_what_it_stored() {
    let scratch = Scratch::new();
    let file = scratch.path("chip.bin");
    let made = Made::of(Part::Mr45v032a);
    let trace = [story(), vec![0x03, 0x04, 0x19]].concat();
    let after = played(&made, &trace, u64::MAX);
    agrees(
        run(&made, &trace, &["--memory", text(&file)]),
        &made,
        &trace,
        &after,
    );
    assert_eq!((after.number(), bytes_of(&file)[0]), (7, 0x11));
}

/// Without a memory file nothing is left anywhere that the run could have reached.
#[test]
fn without_a_memory_file_none_is_made() {
    let scratch = Scratch::new();
    let file = scratch.file("story.trace", story());
    ended(
        sildrokk(["run", "0"])
            .arg(file)
            .current_dir(scratch.folder()),
    )
    .well();
    assert_eq!(scratch.names(), ["story.trace"]);
}

/// 64 letters to a line, whatever the last line has.
#[test]
fn answers_of_any_number_of_events() {
    let scratch = Scratch::new();
    let file = scratch.path("answers.txt");
    let made = Made::with_memory(Part::Mr45v032a, Random::of(2).bytes(4096));
    let memory = scratch.file("chip.bin", &made.memory);
    let mut host = Spi::on();
    host.load(&[0x02, 0x34], 40);
    let trace = host.trace();
    for events in [0, 1, 2, 63, 64, 65, 127, 128, 129, 700] {
        let (quota, after) = (events.to_string(), played(&made, &trace, events));
        let more = [
            "--quota",
            &quota,
            "--answers",
            text(&file),
            "--memory",
            text(&memory),
        ];
        run(&made, &trace, &more).well();
        assert_eq!(bytes_of(&file), after.answers_file(), "{events} events");
    }
    let letters = bytes_of(&file);
    assert!(
        b"01Z".iter().all(|letter| letters.contains(letter)),
        "not all three answers"
    );
}

/// Of a refused run the answers are those of the accepted events, and an older file is gone.
#[test]
fn answers_of_a_refused_run() {
    let scratch = Scratch::new();
    let file = scratch.file("answers.txt", "older\n".repeat(1000));
    let (made, trace) = (
        Made::of(Part::Mr45v032a),
        [0x01, 0x19, 0x04, 0x18, 0x05, 0x01],
    );
    let after = played(&made, &trace, u64::MAX);
    agrees(
        run(&made, &trace, &["--answers", text(&file)]),
        &made,
        &trace,
        &after,
    );
    assert_eq!((after.number(), bytes_of(&file)), (9, b"ZZ\n".to_vec()));
}

/// It stops after so many events; what lies behind is not looked at.
#[test]
fn a_quota_stops_the_run() {
    let made = Made::of(Part::Mr45v032a);
    let trace = [story(), vec![0xff; 5]].concat();
    let whole = story().len() as u64 / 2;
    for quota in [0, 1, 2, 50, whole] {
        let after = played(&made, &trace, quota);
        assert_eq!((after.number(), after.count), (0, quota));
        let words = ["--quota", &quota.to_string()];
        let report = agrees(run(&made, &trace, &words), &made, &trace, &after);
        assert!(
            report.line("ended").contains("quota"),
            "{:?}",
            report.line("ended")
        );
    }
    let refused = played(&made, &trace, whole + 1);
    let words = ["--quota", &(whole + 1).to_string()];
    agrees(run(&made, &trace, &words), &made, &trace, &refused);
}

/// Wherever it stops a long trace, in count, memory, answers and report.
#[test]
fn a_quota_anywhere_in_a_long_trace() {
    let (scratch, mut random) = (Scratch::new(), Random::of(4));
    let made = Made::of(Part::Mr45v100a);
    let trace = long_walk(made.part, 1_200_000, &mut random);
    let file = scratch.file("long.trace", &trace);
    let answers = scratch.path("answers.txt");
    // Some about the ends of what a reader may well take at once.
    let about = [1 << 15, 1 << 16, 1 << 19, 1 << 20].map(|events| events + random.within(0..5));
    let quotas = (0..10)
        .map(|_| random.within(0..1_200_000))
        .collect::<Vec<_>>();
    for quota in quotas.into_iter().chain(about) {
        let after = played(&made, &trace, quota as u64);
        let mut command = sildrokk(["run", "1", text(&file), "--answers", text(&answers)]);
        let done = ended(command.arg(format!("--quota={quota}")));
        agrees(done, &made, &trace, &after);
        assert!(
            bytes_of(&answers) == after.answers_file(),
            "other answers: {quota}"
        );
    }
}

/// A quota that is reached ends the run: it does not wait for more of the trace, whether the last event is
/// all that there is or not.
#[test]
fn a_quota_does_not_wait_for_the_rest() {
    for trace in [
        &[0x01, 0x19, 0x04, 0x18, 0x04][..],
        &[0x01, 0x19, 0x04, 0x18],
    ] {
        let command = &mut run_command(&Made::of(Part::Mr45v032a), &["--quota", "2"]);
        let mut running = Running::of(command);
        running.input.as_mut().unwrap().write_all(trace).unwrap();
        let status = running.waited_within(Duration::from_secs(5));
        assert_eq!(status.code(), Some(0), "{trace:02x?}");
    }
}

/// One that is not reached changes nothing of the report.
#[test]
fn a_quota_that_is_not_reached() {
    let made = Made::of(Part::Mr45v032a);
    let told = run(&made, &story(), &[]).well().out;
    for quota in ["1000", "18446744073709551615", "0xFFFFFFFFFFFFFFFF"] {
        assert_eq!(run(&made, &story(), &["--quota", quota]).well().out, told);
    }
}

/// So many samples in one selection, each of which moves WP#.
fn moves(count: usize) -> Vec<u8> {
    let mut host = Spi::on();
    host.sample(0);
    let levels = [spi::HOLD, spi::HOLD | spi::WP].into_iter().cycle();
    host.events.extend(levels.take(count).map(Event::Sample));
    host.trace()
}

/// The first sixteen are listed, with offset and number; then how many more there are.
#[test]
fn sixteen_warnings_are_listed() {
    let made = Made::of(Part::Mr45v032a);
    for count in [0, 1, 2, 15, 16, 17, 18, 1_234] {
        let trace = moves(count);
        let report = Report::of(&run(&made, &trace, &[]).well().out);
        let lines = report.lines("warnings");
        let listed = count.min(16);
        match count {
            0 => assert_eq!(lines, ["none"]),
            _ => assert_eq!(report.numbers("warnings")[0], count as u64),
        }
        let told: Vec<Vec<u64>> = lines[1..=listed].iter().map(|line| numbers(line)).collect();
        // The power on and the fall of CS# come before, two bytes each.
        let meant: Vec<Vec<u64>> = (2..2 + listed as u64)
            .map(|number| vec![2 * number, number])
            .collect();
        assert_eq!(told, meant);
        more_agree(&lines[1 + listed..], count - listed);
    }
}

/// Two bytes in so many rows, each with a row between, become their opposite: so rows and bytes can be
/// told apart.
fn rows_stored(memory: &[u8], rows: u32) -> Vec<u8> {
    let mut host = Spi::on();
    for row in 0..rows {
        let address = 32 * row + 0x01_f005;
        let data: Vec<u8> = memory[address as usize..][..2]
            .iter()
            .map(|byte| !byte)
            .collect();
        host.store(&address.to_be_bytes()[1..], &data);
    }
    host.trace()
}

#[test]
fn sixteen_rows_are_shown() {
    let made = Made::with_memory(Part::Mr45v200b, Random::of(3).bytes(0x40000));
    for rows in [0, 1, 15, 16, 17, 100] {
        let (scratch, trace) = (Scratch::new(), rows_stored(&made.memory, rows));
        let file = scratch.file("chip.bin", &made.memory);
        let after = played(&made, &trace, u64::MAX);
        let ended = run(&made, &trace, &["--memory", text(&file)]).well();
        let report = Report::of(&ended.out);
        assert_eq!(report.numbers("memory")[0], 2 * u64::from(rows));
        memory_agrees(&report, &made.memory, &after.memory);
    }
}

/// A byte that is written and then has its old value again is as it was before.
#[test]
fn what_is_written_back_did_not_change() {
    let mut host = Spi::on();
    host.store(&[0, 0], &[0x11, 0x22]);
    host.store(&[0, 0], &[0x00, 0x22]);
    let made = Made::of(Part::Mr45v032a);
    let after = played(&made, &host.trace(), u64::MAX);
    let report = agrees(run(&made, &host.trace(), &[]), &made, &host.trace(), &after);
    assert_eq!(report.numbers("memory"), [1, 4096]);
}
