//! Runs of the command, and whether a report agrees with what the library says of the same trace.

use super::command::{fed, sildrokk, Ended};
use super::played::{Made, Played};
use super::report::{dump, thousands, Report};
use sildrokk::trace::Event;
use sildrokk::Refusal;
use std::process::Command;

/// `run` of a trace that comes by standard input.
pub fn run_command(made: &Made, more: &[&str]) -> Command {
    let mut command = sildrokk(["run"]);
    command.args(made.words()).arg("-").args(more);
    command
}

pub fn run(made: &Made, trace: &[u8], more: &[&str]) -> Ended {
    fed(&mut run_command(made, more), trace)
}

/// That status and report say what the library says; the report is given back for more.
#[track_caller]
pub fn agrees(ended: Ended, made: &Made, trace: &[u8], played: &Played) -> Report {
    let ended = ended.with(i32::from(played.refusal.is_some()));
    assert_eq!(ended.err, "", "{ended:#?}");
    let report = Report::of(&ended.out);
    part_agrees(&report, made);
    end_agrees(&report, played);
    refusal_agrees(&report, trace, played);
    memory_agrees(&report, &made.memory, &played.memory);
    bits_agree(&report, made, played.saved);
    report
}

#[track_caller]
fn part_agrees(report: &Report, made: &Made) {
    let head = format!("{}, {}", made.part.number(), made.part.name());
    let told = report
        .line("part")
        .strip_prefix(&head)
        .expect("number and name");
    assert_eq!(
        told.contains(&format!("pins {}", made.pins)),
        made.pins != 0,
        "{told:?}"
    );
    assert_eq!(
        told.contains(&format!("bits {}", made.bits)),
        made.bits != 0,
        "{told:?}"
    );
}

#[track_caller]
fn end_agrees(report: &Report, played: &Played) {
    let (number, meaning) = report
        .line("ended")
        .split_once(": ")
        .expect("number and meaning");
    assert_eq!(number, played.number().to_string());
    assert!(!meaning.is_empty());
    assert_eq!(report.numbers("count"), [played.count, played.taken()]);
}

/// The lines of a refused event, which are there only if one was refused.
#[track_caller]
fn refusal_agrees(report: &Report, trace: &[u8], played: &Played) {
    assert_eq!(report.has("event"), played.refusal.is_some());
    assert_eq!(report.has("offset"), played.refusal.is_some());
    let Some(refusal) = played.refusal else {
        return;
    };
    assert_eq!(report.numbers("event")[..2], [played.count, played.taken()]);
    let event = event_at(trace, played.taken() as usize);
    // Of a kind that the part does not have nothing more is told, wherever a piece ends.
    let told = match refusal {
        Refusal::Kind => &event[..1],
        _ => &event[..],
    };
    let shown = format!(": {}, ", hex(told));
    let line = report.lines("event").join(" ");
    assert!(
        line.to_uppercase().contains(&shown),
        "no bytes {shown} in {line:?}"
    );
    assert_eq!(report.numbers("offset")[0], played.offset);
    let (line, field) = (report.lines("offset").join(" "), field(refusal));
    assert!(line.contains(field), "no field {field:?} in {line:?}");
}

/// The field at the offset of a run ('Numbers given back').
fn field(refusal: Refusal) -> &'static str {
    match refusal {
        Refusal::Sample => "sample",
        Refusal::StartAddress => "start address",
        Refusal::ExpectedAnswer => "expected answer",
        _ => "kind",
    }
}

/// The bytes of the event that stands there, as many of them as there are: of no known kind the kind
/// byte alone.
fn event_at(trace: &[u8], at: usize) -> Vec<u8> {
    let rest = &trace[at..];
    let length = Event::length(rest[0]).unwrap_or(1);
    rest[..length.min(rest.len())].to_vec()
}

fn hex(bytes: &[u8]) -> String {
    let words: Vec<String> = bytes.iter().map(|byte| format!("{byte:02X}")).collect();
    words.join(" ")
}

/// How many bytes changed, and the first sixteen rows of them.
#[track_caller]
pub fn memory_agrees(report: &Report, before: &[u8], after: &[u8]) {
    let changed = before
        .iter()
        .zip(after)
        .filter(|(before, after)| before != after)
        .count();
    let told = format!(
        "{} of {} bytes changed",
        thousands(changed as u64),
        thousands(before.len() as u64)
    );
    let lines = report.lines("memory");
    assert_eq!(lines[0], told);
    let rows = dump(before, after);
    let shown: Vec<&String> = rows.iter().take(16).flatten().collect();
    assert_eq!(lines[1..].iter().take(32).collect::<Vec<_>>(), shown);
    more_agree(&lines[1 + shown.len()..], rows.len().saturating_sub(16));
}

/// The one line that tells how many more there are; none if there are no more.
#[track_caller]
pub fn more_agree(lines: &[String], more: usize) {
    assert_eq!(lines.len(), usize::from(more > 0), "{lines:?}");
    let told = lines.iter().map(|line| super::report::numbers(line)[0]);
    assert!(
        told.eq([more as u64].into_iter().filter(|more| *more > 0)),
        "{lines:?}"
    );
}

#[track_caller]
fn bits_agree(report: &Report, made: &Made, saved: u32) {
    let bit = |place: u32| saved >> place & 1;
    let told = format!("{saved}: SRWD {}, BP1 {}, BP0 {}", bit(2), bit(1), bit(0));
    let line = report.line("bits");
    match made.part.bus() {
        sildrokk::Bus::Spi => assert_eq!(line, told),
        // These have none.
        sildrokk::Bus::I2c => assert!(!line.is_empty()),
    }
}
