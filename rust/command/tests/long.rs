//! Traces and captures of any length: they are taken in pieces and not kept, so that the process does not
//! grow.

mod common;

use common::bus::Spi;
use common::command::{fed_by, sildrokk, Ended, Running};
use common::judged::run_command;
use common::long;
use common::played::{flagged, played, Made};
use common::random::Random;
use common::report::{numbers, thousands, Report};
use common::scratch::{bytes_of, text, Scratch};
use common::vcd::Capture;
use sildrokk::trace::spi;
use sildrokk::Part;
use std::fs;
use std::io::Write;
use std::path::Path;
use std::process::Command;
use std::thread;
use std::time::Duration;

const PART: Part = Part::Mr45v032a;

/// What the process may grow by between the middle of the trace and its end, in KiB: less than a
/// hundredth of a byte for each of a hundred million events.
const GROWTH: u64 = 512;

/// The most memory that the process has had so far, in KiB; none once it has ended.
fn most_memory(process: u32) -> Option<u64> {
    let status = fs::read_to_string(format!("/proc/{process}/status")).ok()?;
    let line = status.lines().find(|line| line.starts_with("VmHWM:"))?;
    line.split_whitespace().nth(1)?.parse().ok()
}

/// Plays a block so many times as one trace, by a pipe, then the tail, and looks at the memory of the
/// process half way and at the end.
fn flat(command: &mut Command, block: &[u8], times: usize, tail: &[u8]) -> Ended {
    let mut running = Running::of(command);
    let process = running.child.id();
    let mut pipe = running.input.take().expect("a pipe");
    let mut play = |times: usize| {
        (0..times).for_each(|_| pipe.write_all(block).expect("a command that reads"));
        most_memory(process).expect("a command at work")
    };
    let middle = play(times / 2);
    let end = play(times - times / 2);
    pipe.write_all(tail).expect("a command that reads");
    drop(pipe);
    assert!(
        end <= middle + GROWTH,
        "{middle} KiB in the middle, {end} KiB at the end"
    );
    assert!(end < 65_536, "{end} KiB");
    running.end()
}

/// A power cycle of so many events, which leaves the same memory however often it is played: bytes are
/// stored and read, and WP# moves in some of the selections if it is to.
fn cycle(events: usize, moving: bool) -> Vec<u8> {
    let mut host = Spi::on();
    let moves = if moving { spi::WP } else { 0 };
    while host.events.len() + 1_000 < events {
        host.store(&[0x01, 0xfe], &[0x12, 0x34, 0x56]);
        host.load(&[0x01, 0xff], 10);
        host.sample(0);
        host.held ^= moves;
        host.sample(0);
        host.held ^= moves;
        host.sample(0);
        host.sample(spi::CS);
    }
    let left = events - 1 - host.events.len();
    (0..left).for_each(|_| host.sample(spi::CS));
    host.off();
    assert_eq!(host.events.len(), events);
    host.trace()
}

/// The count that the report has to give.
fn told(count: usize, bytes: usize) -> String {
    format!(
        "{} events, {} bytes",
        thousands(count as u64),
        thousands(bytes as u64)
    )
}

/// A hundred million events. The last are a warning and a refusal, so that large numbers are told; in the
/// longer form these are past four bytes.
#[test]
fn a_hundred_million_events() {
    let (events, times) = (1_000_000, if long() { 2_200 } else { 100 });
    let (scratch, made, block) = (Scratch::new(), Made::of(PART), cycle(events, false));
    let file = scratch.path("chip.bin");
    let tail = [0x01, 0x19, 0x04, 0x18, 0x04, 0x10, 0x04, 0x20];
    let mut command = run_command(&made, &["--memory", text(&file)]);
    let report = Report::of(&flat(&mut command, &block, times, &tail).with(1).out);
    let (count, bytes) = (events * times, block.len() * times);
    assert!(report.line("ended").starts_with("6: "));
    assert_eq!(report.line("count"), told(count + 3, bytes + 6));
    assert_eq!(
        report.numbers("event")[..2],
        [count as u64 + 3, bytes as u64 + 6]
    );
    assert_eq!(report.numbers("offset")[0], bytes as u64 + 7);
    assert_eq!(report.numbers("warnings")[0], 1);
    let warned = [bytes as u64 + 4, count as u64 + 2];
    assert_eq!(numbers(&report.lines("warnings")[1]), warned);
    assert_eq!(bytes_of(&file), played(&made, &block, u64::MAX).memory);
}

/// With answers to be written and warnings all along: neither is kept.
#[test]
fn answers_and_warnings_are_not_kept() {
    let (events, times) = (100_000, if long() { 1_000 } else { 100 });
    let (scratch, made, block) = (Scratch::new(), Made::of(PART), cycle(events, true));
    let warned = flagged(&made, &block).len() * times;
    assert!(warned > times * events / 1_000, "only {warned}");
    let file = scratch.path("answers.txt");
    let mut command = run_command(&made, &["--answers", text(&file)]);
    let report = Report::of(&flat(&mut command, &block, times, &[]).well().out);
    assert_eq!(
        report.line("count"),
        told(events * times, block.len() * times)
    );
    assert_eq!(report.numbers("warnings")[0], warned as u64);
    let letters = played(&made, &block, u64::MAX).answers.repeat(times);
    let lines = letters
        .chunks(64)
        .flat_map(|line| line.iter().copied().chain([b'\n']));
    assert!(
        bytes_of(&file).into_iter().eq(lines),
        "other answers than those of the block"
    );
}

/// A waveform is written as the trace is played.
#[test]
fn a_long_wave() {
    let (events, times) = (100_000, if long() { 1_000 } else { 100 });
    let block = cycle(events, true);
    let mut command = sildrokk(["wave", "0", "-", "-o", "/dev/null"]);
    flat(&mut command, &block, times, &[]).with(0);
}

/// The most memory that a command has had by its end, as far as that was seen; it must end well.
fn peak(command: &mut Command) -> u64 {
    let running = Running::of(command);
    let mut peak = 0;
    while let Some(most) = most_memory(running.child.id()) {
        peak = peak.max(most);
        thread::sleep(Duration::from_millis(1));
    }
    running.end().well();
    peak
}

/// A capture of so many samples, each of which changes a wire.
fn moving(samples: usize, file: &Path) {
    let mut random = Random::of(90);
    let mut capture = Capture::of(&["D0", "D1", "D2", "D3", "D4"]);
    let mut levels = vec![true, false, false, true, true];
    for _ in 0..samples {
        let wire = random.within(0..5);
        levels[wire] = !levels[wire];
        capture.samples.push(levels.clone());
    }
    fs::write(file, capture.csv()).expect("the capture");
}

/// A capture of twenty times as many samples takes no more memory.
#[test]
fn a_long_capture() {
    let scratch = Scratch::new();
    let (short, far) = (100_000, if long() { 10_000_000 } else { 2_000_000 });
    let peaks = [short, far].map(|samples| {
        let (file, trace) = (scratch.path("a.csv"), scratch.path("a.trace"));
        moving(samples, &file);
        let map = "cs=D0,sck=D1,si=D2,so=D2,wp=D3,hold=D4";
        let mut command = sildrokk(["capture", "0", text(&file), "-o", text(&trace)]);
        let peak = peak(command.args(["--format", "csv:column_formats=*l", "--map", map]));
        assert!(bytes_of(&trace).len() >= 2 * samples);
        peak
    });
    assert!(
        peaks[1] <= peaks[0] + GROWTH && peaks[0] > 0,
        "{peaks:?} KiB"
    );
}

/// A pipe that gives a byte at a time does not make a run go wrong, nor end early.
#[test]
fn byte_by_byte() {
    let (made, block) = (Made::of(PART), cycle(3_000, true));
    let ended = fed_by(&mut run_command(&made, &[]), |mut pipe| {
        block
            .iter()
            .for_each(|byte| pipe.write_all(&[*byte]).expect("a command that reads"));
    });
    common::judged::agrees(ended, &made, &block, &played(&made, &block, u64::MAX));
}
