//! `wave`: a run as a VCD file, whose wires are what the library says, event by event, and whose bytes are
//! what sigrok-cli's decoders find.

mod common;

use common::bus::{bytes, I2c, Spi};
use common::command::{ended, fed, sildrokk, Ended, Running};
use common::many;
use common::played::{played, steps, Made, Step};
use common::random::Random;
use common::scratch::{bytes_of, stamp_of, text, Scratch};
use common::sigrok::{decoded, sigrok};
use common::vcd::Wave;
use common::walk::{long_walk, walk};
use sildrokk::trace::{i2c, spi, Event};
use sildrokk::{Answer, Bus, Part};
use std::path::Path;
use std::time::Duration;

/// `wave` of a trace by standard input.
fn wave(made: &Made, trace: &[u8], to: &Path, more: &[&str]) -> Ended {
    let mut command = sildrokk(["wave"]);
    command
        .args(made.words())
        .args(["-", "-o"])
        .arg(to)
        .args(more);
    fed(&mut command, trace)
}

fn read(file: &Path) -> Wave {
    Wave::read(&String::from_utf8(bytes_of(file)).expect("text"))
}

const SPI_WIRES: [(&str, u8); 5] = [
    ("CS#", spi::CS),
    ("SCK", spi::SCK),
    ("SI", spi::SI),
    ("WP#", spi::WP),
    ("HOLD#", spi::HOLD),
];

/// The levels that the wires have while an event lasts.
fn levels(bus: Bus, sample: u8, step: &Step) -> Vec<(&'static str, char)> {
    let digit = |high: bool| if high { '1' } else { '0' };
    let high = |bit: u8| sample & bit != 0;
    let answer = step.answer.letter().to_ascii_lowercase();
    let wires = match bus {
        Bus::Spi => {
            let wires = SPI_WIRES.map(|(name, bit)| (name, digit(high(bit))));
            [&wires[..], &[("SO", answer)]].concat()
        }
        Bus::I2c => vec![
            ("SCL", digit(high(i2c::SCL))),
            ("SDA", digit(high(i2c::SDA) && step.answer != Answer::Low)),
            ("HOST", digit(high(i2c::SDA))),
            ("WP", digit(high(i2c::WP))),
            ("PART", answer),
        ],
    };
    let power = ("POWER", digit(step.event != Event::PowerOff));
    [&wires[..], &[power, ("WARNING", digit(step.warning))]].concat()
}

/// That the waveform has these wires and no others, and at each microsecond the levels of the event with
/// that number.
#[track_caller]
fn shows(wave: &Wave, made: &Made, trace: &[u8]) {
    let mut sample = 0;
    let steps = steps(made, trace);
    for (step, time) in steps.iter().zip(0..) {
        sample = match step.event {
            Event::SpiPowerOn { sample } | Event::I2cPowerOn { sample, .. } => sample,
            Event::Sample(sample) => sample,
            Event::PowerOff | Event::Expected(_) => sample,
        };
        let meant = levels(made.part.bus(), sample, step);
        let mut names: Vec<&str> = meant.iter().map(|(name, _)| *name).collect();
        let found: Vec<_> = names
            .iter()
            .map(|name| (*name, wave.level(name, time)))
            .collect();
        assert_eq!(found, meant, "event {time}, {:?}", step.event);
        names.sort();
        assert_eq!(wave.names(), names);
    }
    assert_eq!(wave.end, steps.len() as u64, "a microsecond for each event");
}

#[test]
fn each_event_of_a_walk() {
    let mut random = Random::of(40);
    for _ in 0..many(60, 10) {
        let scratch = Scratch::new();
        let file = scratch.path("run.vcd");
        let made = Made::of(random.one_of(&Part::ALL));
        let events = random.one_of(&[1, 5, 100, 3_000]);
        let trace = walk(made.part, events, &mut random);
        let after = played(&made, &trace, u64::MAX);
        wave(&made, &trace, &file, &[]).with(i32::from(after.refusal.is_some()));
        shows(&read(&file), &made, &trace);
    }
}

/// Transfers that the part answers, with its memory, pins and bits.
#[test]
fn each_event_of_a_transfer() {
    let scratch = Scratch::new();
    let file = scratch.path("run.vcd");
    for (made, trace) in [spi_transfers(), i2c_transfers()] {
        let memory = scratch.file("chip.bin", &made.memory);
        wave(&made, &trace, &file, &["--memory", text(&memory)]).with(0);
        shows(&read(&file), &made, &trace);
    }
}

fn spi_transfers() -> (Made, Vec<u8>) {
    let memory = Random::of(41).bytes(Part::Mr45v100a.size());
    let made = Made {
        bits: 3,
        ..Made::with_memory(Part::Mr45v100a, memory)
    };
    let mut host = Spi::on();
    host.select(&[0x05, 0x00, 0x00]);
    host.select(&[0x9f, 0x00, 0x00, 0x00]);
    host.load(&[0x01, 0xff, 0xfe], 4);
    host.protect(0);
    host.store(&[0x00, 0x12, 0x34], &[1, 2, 3]);
    host.off();
    host.on_again();
    host.load(&[0x00, 0x12, 0x33], 5);
    (made, host.trace())
}

fn i2c_transfers() -> (Made, Vec<u8>) {
    let memory = Random::of(42).bytes(Part::Mr44v064b.size());
    let made = Made {
        pins: 5,
        ..Made::with_memory(Part::Mr44v064b, memory)
    };
    let mut host = I2c::on(0x123);
    host.load_on(0xaa, 3);
    host.store(0xaa, 0x1ffe, &[1, 2, 3, 4]);
    host.load(0xaa, 0x1fff, 3);
    host.load(0xac, 0x0000, 1);
    host.off();
    host.on_again(7);
    host.load_on(0xaa, 1);
    (made, host.trace())
}

/// A long one, over many pieces of any reader.
#[test]
fn each_event_of_a_long_walk() {
    let mut random = Random::of(43);
    let (scratch, made) = (Scratch::new(), Made::of(Part::Ms85rc1mty));
    let trace = long_walk(made.part, many(700_000, 10), &mut random);
    let file = scratch.path("run.vcd");
    wave(&made, &trace, &file, &[]).with(0);
    shows(&read(&file), &made, &trace);
}

/// Of a refused run the events before the refused one are shown; of a quota so many.
#[test]
fn what_was_accepted_is_shown() {
    let (scratch, made) = (Scratch::new(), Made::of(Part::Mr45v032a));
    let file = scratch.path("run.vcd");
    let trace = [0x01, 0x19, 0x04, 0x18, 0x04, 0x10, 0x07, 0x04, 0x18];
    wave(&made, &trace, &file, &[]).with(1);
    shows(&read(&file), &made, &trace[..6]);
    wave(&made, &trace, &file, &["--quota", "2"]).with(0);
    shows(&read(&file), &made, &trace[..4]);
}

/// The memory file is read and not changed; a missing one is taken as zeros and not made.
#[test]
fn the_memory_is_only_read() {
    let scratch = Scratch::new();
    let file = scratch.path("run.vcd");
    let (made, trace) = spi_transfers();
    let memory = scratch.file("chip.bin", &made.memory);
    let before = stamp_of(&memory);
    wave(&made, &trace, &file, &["--memory", text(&memory)]).with(0);
    assert_eq!(stamp_of(&memory), before);
    let zeros = Made {
        memory: vec![0; made.memory.len()],
        ..made
    };
    wave(
        &zeros,
        &trace,
        &file,
        &["--memory", text(&scratch.path("none.bin"))],
    )
    .with(0);
    shows(&read(&file), &zeros, &trace);
    assert_eq!(scratch.names(), ["chip.bin", "run.vcd"]);
}

#[test]
fn bad_use_of_wave() {
    let scratch = Scratch::new();
    let (made, trace) = (Made::of(Part::Mr45v032a), [0x01, 0x19]);
    let short = scratch.file("short.bin", [0; 4095]);
    let file = scratch.path("run.vcd");
    wave(&made, &trace, &file, &["--memory", text(&short)]).bad_use(&["short.bin"]);
    wave(&made, &trace, &file, &["--memory", text(scratch.folder())]).bad_use(&[]);
    wave(&made, &trace, Path::new("/dev/full"), &[])
        .with(2)
        .says(&["/dev/full"]);
    wave(&made, &trace, &scratch.path("none/run.vcd"), &[]).bad_use(&["none/run.vcd"]);
    wave(&made, &trace, scratch.folder(), &[]).bad_use(&[text(scratch.folder())]);
    let missing = ended(&mut sildrokk([
        "wave",
        "0",
        "none.trace",
        "-o",
        text(&file),
    ]));
    missing.bad_use(&["none.trace"]);
}

/// A pipe is no memory file: nothing waits for what it may hold.
#[test]
fn a_memory_that_is_a_pipe() {
    let scratch = Scratch::new();
    ended(std::process::Command::new("mkfifo").arg(scratch.path("pipe"))).well();
    let mut command = sildrokk(["wave", "0", "-", "-o", text(&scratch.path("run.vcd"))]);
    let command = command.arg("--memory").arg(scratch.path("pipe"));
    let status = Running::of(command).waited_within(Duration::from_secs(5));
    assert_eq!(status.code(), Some(2));
}

/// Bytes on SI and SO as the decoder finds them in mode 0.
#[test]
fn spi_bytes_by_the_decoder() {
    let scratch = Scratch::new();
    let file = scratch.path("run.vcd");
    let (made, trace) = spi_transfers();
    let memory = scratch.file("chip.bin", &made.memory);
    wave(&made, &trace, &file, &["--memory", text(&memory)]).with(0);
    let decoder = "spi:clk=SCK:mosi=SI:miso=SO:cs=CS#";
    let sent: &[&[u8]] = &[
        &[0x05, 0, 0],
        &[0x9f, 0, 0, 0],
        &[0x03, 0x01, 0xff, 0xfe, 0, 0, 0, 0],
        &[0x06],
        &[0x01, 0x00],
        &[0x06],
        &[0x02, 0x00, 0x12, 0x34, 1, 2, 3],
        &[0x03, 0x00, 0x12, 0x33, 0, 0, 0, 0, 0],
    ];
    assert_eq!(decoded(&file, decoder, "spi=mosi-data"), sent.concat());

    let back = decoded(&file, decoder, "spi=miso-data");
    let at = |address: usize| made.memory[address % made.memory.len()];
    // BP 11 of the making; the identity of the part; the memory and its first bytes after the top.
    assert_eq!(back[1..3], [0x0c, 0x0c]);
    assert_eq!(back[4..7], [0xae, 0x83, 0x09]);
    assert_eq!(back[11..15], [0x1fffe, 0x1ffff, 0x20000, 0x20001].map(at));
    let last = back.len() - 5;
    assert_eq!(back[last..], [at(0x1233), 1, 2, 3, at(0x1237)]);
}

/// Words and bytes on I2C as the decoder finds them.
#[test]
fn i2c_bytes_by_the_decoder() {
    let scratch = Scratch::new();
    let file = scratch.path("run.vcd");
    let (made, trace) = i2c_transfers();
    let memory = scratch.file("chip.bin", &made.memory);
    wave(&made, &trace, &file, &["--memory", text(&memory)]).with(0);
    let found = |class: &str| decoded(&file, "i2c:scl=SCL:sda=SDA", &format!("i2c={class}"));
    let written = [0x1f, 0xfe, 1, 2, 3, 4, 0x1f, 0xff, 0x00, 0x00];
    assert_eq!(found("data-write"), written);
    let at = |address: usize| made.memory[address];
    let start = [at(0x123), at(0x124), at(0x125)];
    // FFh is what a bus shows on which nobody answers; then the start address after the power on.
    let read = [&start[..], &[2, 3, 4], &[0xff], &[at(7)]].concat();
    assert_eq!(found("data-read"), read);
    assert_eq!(found("address-write"), [0x55, 0x55, 0x56]);
    assert_eq!(found("address-read"), [0x55, 0x55, 0x56, 0x55]);
}

/// The acknowledges, by the same decoder: a word of another part has none.
#[test]
fn acknowledges_by_the_decoder() {
    let scratch = Scratch::new();
    let file = scratch.path("run.vcd");
    for (word, acknowledged) in [(0xa0, true), (0xa2, false)] {
        let mut host = I2c::on(0);
        host.store(word, 0x0102, &[3]);
        wave(&Made::of(Part::Mr44v064b), &host.trace(), &file, &[]).with(0);
        let shown = sigrok(&[
            "-i",
            text(&file),
            "-P",
            "i2c:scl=SCL:sda=SDA",
            "-A",
            "i2c=ack:nack",
        ]);
        let all: Vec<bool> = shown.lines().map(|line| !line.contains("NACK")).collect();
        assert_eq!(all, [acknowledged; 4], "{shown}");
    }
}

/// An event of each kind and no more: every one takes its microsecond.
#[test]
fn event_number_is_the_time() {
    let (scratch, made) = (Scratch::new(), Made::of(Part::Mr45v032a));
    let file = scratch.path("run.vcd");
    let events = [
        Event::SpiPowerOn { sample: 0x19 },
        Event::Expected(2),
        Event::Sample(0x19),
        Event::Sample(0x18),
        Event::Expected(2),
        Event::PowerOff,
        Event::SpiPowerOn { sample: 0x1b },
    ];
    wave(&made, &bytes(&events), &file, &[]).with(0);
    let shown = read(&file);
    let over = |wire: &str| {
        (0..7)
            .map(|time| shown.level(wire, time))
            .collect::<String>()
    };
    assert_eq!(
        [over("CS#"), over("SCK"), over("POWER")],
        ["1110001", "0000001", "1111101"]
    );
    shows(&shown, &made, &bytes(&events));
}

/// A trace without events is a waveform without times that anything happens at.
#[test]
fn no_event_at_all() {
    let (scratch, made) = (Scratch::new(), Made::of(Part::Ms85rc1mty));
    let file = scratch.path("run.vcd");
    wave(&made, &[], &file, &[]).with(0);
    let shown = read(&file);
    assert_eq!((shown.end, shown.names()), (0, vec![]));
    wave(&made, &[0x04, 0x03], &file, &[]).with(1);
    assert_eq!(read(&file).end, 0);
}

/// Where standard output has the waveform the report goes to standard error.
#[test]
fn a_wave_on_standard_output() {
    let (made, trace) = (Made::of(Part::Mr45v032a), [0x01, 0x19, 0x04, 0x18]);
    let done = wave(&made, &trace, Path::new("-"), &[]).with(0);
    shows(&Wave::read(&done.out), &made, &trace);
    assert!(done.err.contains("ended     0"), "{done:#?}");
}
