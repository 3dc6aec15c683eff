//! `capture` with the supply mapped, with tied wires, and with captures of many channels: which samples
//! become events at all.

mod common;

use common::bus::{bytes, events, I2c, Spi, I2C_REST};
use common::chip::{captured, map, Bench, Seen};
use common::command::{ended, sildrokk};
use common::played::played;
use common::random::Random;
use common::report::Report;
use common::scratch::{bytes_of, text, Scratch};
use common::vcd::Capture;
use common::wanted::Wanted;
use sildrokk::trace::{i2c, spi, Event};
use sildrokk::Part;

/// `capture` of samples, with these words: its trace and its report.
fn trace_of(part: Part, capture: &Capture, words: &[&str]) -> (Vec<u8>, Report) {
    let scratch = Scratch::new();
    let file = scratch.file("a.vcd", capture.vcd());
    let trace = scratch.path("a.trace");
    let mut command = sildrokk(["capture", part.name(), text(&file), "-o", text(&trace)]);
    let told = ended(command.args(words)).well();
    (bytes_of(&trace), Report::of(&told.out))
}

/// Power comes late, goes and comes again, and is gone at the end.
fn cycles(part: Part, seed: u64) -> Vec<Seen> {
    let mut bench = Bench::of(part, seed);
    let mut host = Spi::on();
    host.load(&[0, 0], 1);
    host.off();
    host.on_again();
    host.load(&[0, 0], 2);
    let mut two_wires = I2c::on(0);
    two_wires.load(0xa0, 0x12, 1);
    two_wires.off();
    two_wires.on_again(0);
    two_wires.load_on(0xa0, 2);
    two_wires.off();
    let done = if part.number() < 3 {
        host.events
    } else {
        two_wires.events
    };
    let dark = Seen {
        power: false,
        levels: 0,
        answer: false,
    };
    let moved = Seen { levels: 3, ..dark };
    let seen = bench.seen(&done);
    [&[dark, moved, dark][..], &seen, &[dark, moved]].concat()
}

/// Samples without power are dropped, and a fall of it is a power off.
#[test]
fn the_supply() {
    for (part, answers) in [(0, false), (0, true), (2, true), (3, true), (4, false)] {
        let part = Part::of_number(part).unwrap();
        let seen = cycles(part, 60);
        let wanted = Wanted::of(part, answers, true);
        let capture = captured(part, &seen, &mut Random::of(61));
        let (trace, report) = trace_of(part, &capture, &["--map", &map(part, answers, true)]);
        let meant = wanted.trace(&seen);
        assert_eq!(trace, bytes(&meant), "{part}");
        let of = |kind: fn(&&Event) -> bool| meant.iter().filter(kind).count() as u64;
        let (off, samples) = (
            of(|it| **it == Event::PowerOff),
            of(|it| matches!(it, Event::Sample(_))),
        );
        assert_eq!(off, 2);
        assert_eq!(report.numbers("kept"), [2, samples, off]);
    }
}

/// Without it the part gets its power with the first sample, and keeps it.
#[test]
fn without_the_supply() {
    let seen = cycles(Part::Mr45v032a, 62);
    let part = Part::Mr45v032a;
    let wanted = Wanted::of(part, false, false);
    let capture = captured(part, &seen, &mut Random::of(63));
    let (trace, report) = trace_of(part, &capture, &["--map", &map(part, false, false)]);
    assert_eq!(trace, bytes(&wanted.trace(&seen)));
    assert_eq!((trace[0], report.numbers("kept")[0]), (0x01, 1));
}

/// The start address of every power on of an I2C part: as told, decimal or hexadecimal, or 0.
#[test]
fn the_start_address() {
    let part = Part::Ms85rc1mty;
    let seen = cycles(part, 64);
    let capture = captured(part, &seen, &mut Random::of(65));
    let map = map(part, false, true);
    for (words, start) in [
        (vec![], 0),
        (vec!["--start", "70000"], 70000),
        (vec!["--start=0x1FFFF"], 0x1ffff),
    ] {
        let (trace, _) = trace_of(
            part,
            &capture,
            &[&["--map", map.as_str()][..], &words].concat(),
        );
        let wanted = Wanted {
            part,
            pins: 0,
            start,
            answers: false,
            power: true,
        };
        assert_eq!(trace, bytes(&wanted.trace(&seen)));
        let on = Event::I2cPowerOn {
            sample: I2C_REST,
            start,
        };
        assert_eq!(events(&trace).iter().filter(|it| **it == on).count(), 2);
    }
}

/// A wire that is tied has that level in every sample.
#[test]
fn tied_wires() {
    let mut capture = Capture::of(&["one", "two", "three"]);
    let levels = [
        [true, false, false],
        [false, false, true],
        [false, true, true],
        [true, true, true],
    ];
    capture.samples = levels.iter().map(|it| it.to_vec()).collect();
    let sample = |one: &[bool; 3]| {
        let high = |at: usize, bit: u8| if one[at] { bit } else { 0 };
        high(0, spi::CS) | high(1, spi::SCK) | high(2, spi::SI)
    };
    for (wp, hold, tied) in [
        ("high", "high", spi::WP | spi::HOLD),
        ("low", "high", spi::HOLD),
        ("low", "low", 0),
    ] {
        let map = format!("cs=one,sck=two,si=three,wp={wp},hold={hold}");
        let (trace, report) = trace_of(Part::Mr45v032a, &capture, &["--map", &map]);
        let mut meant = vec![0x01, sample(&levels[0]) | tied];
        levels[1..]
            .iter()
            .for_each(|one| meant.extend([0x04, sample(one) | tied]));
        assert_eq!(trace, meant);
        assert_eq!(report.numbers("read"), [4, 3]);
    }
}

/// The map may be given in pieces, and its wires in any order.
#[test]
fn a_map_in_pieces() {
    let mut capture = Capture::of(&["SDA", "SCL"]);
    capture.samples = [[true, true], [false, true], [false, false]]
        .iter()
        .map(|it| it.to_vec())
        .collect();
    let words = ["--map", "wp=low", "--map", "sda=SDA,scl=SCL"];
    let (trace, _) = trace_of(Part::Mr44v064b, &capture, &words);
    assert_eq!(trace, [0x02, 0x03, 0, 0, 0, 0x04, 0x01, 0x04, 0x00]);
}

/// A capture of more channels than a byte has bits, of which the last ones are the part's.
#[test]
fn many_channels() {
    let mut random = Random::of(66);
    let names: Vec<String> = (0..21).map(|at| format!("A{at}")).collect();
    let mut capture = Capture {
        channels: names,
        samples: Vec::new(),
    };
    capture.samples = (0..500)
        .map(|_| (0..21).map(|_| random.once_in(2)).collect())
        .collect();
    let map = "scl=A19,sda=A20,wp=A8";
    let (trace, report) = trace_of(Part::Mr44v064b, &capture, &["--map", map]);
    let bit = |high: bool, bit: u8| if high { bit } else { 0 };
    let sample =
        |it: &Vec<bool>| bit(it[19], i2c::SCL) | bit(it[20], i2c::SDA) | bit(it[8], i2c::WP);
    let mut samples: Vec<u8> = capture.samples.iter().map(sample).collect();
    samples.dedup();
    let mut meant = vec![0x02, samples[0], 0, 0, 0];
    samples[1..].iter().for_each(|it| meant.extend([0x04, *it]));
    assert_eq!(trace, meant);
    assert_eq!(report.numbers("read"), [500, 21]);
}

/// The level of SO that counts is that of the sample before the rise, and not of the rise's own: there it
/// is made the opposite.
#[test]
fn the_level_before_the_rise() {
    let part = Part::Mr45v032a;
    let mut bench = Bench::of(part, 67);
    let mut host = Spi::on();
    host.load(&[0x01, 0x23], 3);
    let mut seen = bench.seen(&host.events);
    let high = |one: &Seen| one.levels & spi::SCK != 0;
    let rises: Vec<usize> = (1..seen.len())
        .filter(|at| high(&seen[*at]) && !high(&seen[at - 1]))
        .collect();
    rises.iter().for_each(|at| seen[*at].answer ^= true);
    let wanted = Wanted::of(part, true, false);
    let capture = captured(part, &seen, &mut bench.random);
    let (trace, report) = trace_of(part, &capture, &["--map", &map(part, true, false)]);
    assert_eq!(trace, bytes(&wanted.trace(&seen)));
    assert_eq!(report.numbers("answers"), [24]);
    assert_eq!(played(&bench.made, &trace, u64::MAX).number(), 0);
}

/// A cut within a transfer ends it: what goes by after the next power on is nobody's turn until START.
#[test]
fn a_cut_within_a_transfer() {
    let part = Part::Mr44v064b;
    let mut bench = Bench::of(part, 68);
    let mut host = I2c::on(0);
    host.start();
    host.put(0xa1);
    host.off();
    host.on_again(0);
    (0..20).for_each(|_| host.bit(false));
    let seen = bench.seen(&host.events);
    let wanted = Wanted::of(part, true, true);
    let capture = captured(part, &seen, &mut bench.random);
    let (trace, _) = trace_of(part, &capture, &["--map", &map(part, true, true)]);
    assert_eq!(trace, bytes(&wanted.trace(&seen)));
    assert_eq!(played(&bench.made, &trace, u64::MAX).number(), 0);
}
