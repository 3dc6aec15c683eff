//! From a trace to a waveform and back: `capture` of what `wave` writes gives the trace again, but for
//! events that change no wire, expected answers and start addresses; and a run on it ends the same.

mod common;

use common::bus::{bytes, events};
use common::command::{ended, fed, sildrokk};
use common::judged::run;
use common::many;
use common::played::{played, Made};
use common::random::Random;
use common::scratch::{bytes_of, text, Scratch};
use common::sigrok::converted;
use common::walk::walk;
use sildrokk::trace::Event;
use sildrokk::{Bus, Part};
use std::path::{Path, PathBuf};

/// As docs/COMMAND.md has it for SPI; on I2C SDA as the host alone drives it.
fn map(part: Part) -> &'static str {
    match part.bus() {
        Bus::Spi => "cs=CS#,sck=SCK,si=SI,wp=WP#,hold=HOLD#,power=POWER",
        Bus::I2c => "scl=SCL,sda=HOST,wp=WP,power=POWER",
    }
}

/// Without what does not come back.
fn that_comes_back(trace: &[u8]) -> Vec<Event> {
    let mut last = None;
    let mut kept = Vec::new();
    for event in events(trace) {
        match event {
            Event::Expected(_) => {}
            Event::Sample(sample) if last == Some(sample) => {}
            Event::Sample(_) | Event::PowerOff => kept.push(event),
            Event::SpiPowerOn { .. } => kept.push(event),
            Event::I2cPowerOn { sample, .. } => kept.push(Event::I2cPowerOn { sample, start: 0 }),
        }
        last = sample_of(event).or(last);
    }
    kept
}

fn sample_of(event: Event) -> Option<u8> {
    match event {
        Event::Sample(sample) | Event::SpiPowerOn { sample } => Some(sample),
        Event::I2cPowerOn { sample, .. } => Some(sample),
        Event::PowerOff | Event::Expected(_) => None,
    }
}

/// The waveform of a trace in a folder.
fn wave(scratch: &Scratch, made: &Made, trace: &[u8]) -> PathBuf {
    let (file, memory) = (
        scratch.path("run.vcd"),
        scratch.file("chip.bin", &made.memory),
    );
    let mut command = sildrokk(["wave"]);
    command
        .args(made.words())
        .args(["-", "-o", text(&file), "--memory", text(&memory)]);
    fed(&mut command, trace).with(0);
    file
}

fn back(scratch: &Scratch, part: Part, file: &Path, map: &str, more: &[&str]) -> Vec<u8> {
    let trace = scratch.path("back.trace");
    let mut command = sildrokk([
        "capture",
        part.name(),
        text(file),
        "--map",
        map,
        "-o",
        text(&trace),
    ]);
    ended(command.args(more)).well();
    bytes_of(&trace)
}

/// Whole walks that nothing ends before their time.
fn accepted_walk(made: &Made, random: &mut Random) -> Vec<u8> {
    let events = random.one_of(&[1, 10, 200, 1_000]);
    let mut walks = std::iter::repeat_with(|| walk(made.part, events, random));
    walks
        .find(|trace| played(made, trace, u64::MAX).refusal.is_none())
        .unwrap()
}

#[test]
fn walks_come_back() {
    let mut random = Random::of(70);
    for _ in 0..many(60, 10) {
        let scratch = Scratch::new();
        let made = Made::of(random.one_of(&Part::ALL));
        let trace = accepted_walk(&made, &mut random);
        let file = wave(&scratch, &made, &trace);
        let found = back(&scratch, made.part, &file, map(made.part), &[]);
        assert_eq!(
            found,
            bytes(&that_comes_back(&trace)),
            "{} {trace:02x?}",
            made.part
        );
    }
}

/// By .sr and by CSV as by VCD.
#[test]
fn every_format_comes_back() {
    let mut random = Random::of(71);
    Part::ALL
        .into_iter()
        .for_each(|part| by_every_format(part, &mut random));
}

fn by_every_format(part: Part, random: &mut Random) {
    let (scratch, made) = (Scratch::new(), Made::of(part));
    let trace = accepted_walk(&made, random);
    let vcd = wave(&scratch, &made, &trace);
    let (sr, csv) = (scratch.path("a.sr"), scratch.path("a.csv"));
    converted(&vcd, &sr, "srzip");
    converted(&sr, &csv, "csv:label=channel:header=false");
    let meant = bytes(&that_comes_back(&trace));
    for (file, format) in [(&vcd, &[][..]), (&sr, &[]), (&csv, &["--format", "csv"])] {
        let found = back(&scratch, part, file, map(part), format);
        assert_eq!(found, meant, "{}", file.display());
    }
}

/// With the answers mapped the trace that comes back expects them, and runs well on the memory that the
/// waveform was made with, to the same memory. On I2C the host's own SDA may be mapped, or the wire twice.
#[test]
fn a_run_on_it_is_the_same() {
    let mut random = Random::of(72);
    let wire = "scl=SCL,sda=SDA,wp=WP,power=POWER";
    let maps = |part: Part| match part.bus() {
        Bus::Spi => vec![format!("{},so=SO", map(part))],
        Bus::I2c => vec![format!("{},out=SDA", map(part)), format!("{wire},out=SDA")],
    };
    let cases = |part: Part| maps(part).into_iter().map(move |map| (part, map));
    for (part, map) in Part::ALL.into_iter().flat_map(cases) {
        let scratch = Scratch::new();
        let made = Made::with_memory(part, random.bytes(part.size()));
        let trace = transfers(part);
        let meant = played(&made, &trace, u64::MAX);
        let file = wave(&scratch, &made, &trace);
        let found = back(&scratch, part, &file, &map, &[]);
        let expects = |it: &&Event| matches!(it, Event::Expected(_));
        let expected = events(&found).iter().filter(expects).count();
        assert!(expected >= 24, "only {expected} expected answers");
        let memory = scratch.file("chip.bin", &made.memory);
        run(&made, &found, &["--memory", text(&memory)]).well();
        assert!(bytes_of(&memory) == meant.memory && meant.memory != made.memory);
    }
}

/// Some bytes stored and read.
fn transfers(part: Part) -> Vec<u8> {
    let (mut spi, mut i2c) = (common::bus::Spi::on(), common::bus::I2c::on(0));
    let address = &[0, 0x01, 0x23][if part == Part::Mr45v032a { 1 } else { 0 }..];
    spi.load(address, 3);
    spi.store(address, &[1, 2, 3]);
    spi.load(address, 5);
    i2c.load(0xa0, 0x0123, 3);
    i2c.store(0xa0, 0x0123, &[1, 2, 3]);
    i2c.load(0xa0, 0x0123, 5);
    if part.bus() == Bus::Spi {
        spi.trace()
    } else {
        i2c.trace()
    }
}
