//! What a run is told as: lines with a name, on standard output.

use crate::dump;
use crate::fault::Fault;
use crate::options::Played;
use crate::play::{Ended, Play, Refused};
use crate::warnings::Warnings;
use console::Style;
use indicatif::HumanCount;
use sildrokk::trace::Event;
use sildrokk::{Answer, Bus, Refusal};
use std::fmt::Display;
use std::io::{self, ErrorKind, Write};

/// Lines to be printed: on standard output, or aside on standard error where standard output has
/// something else.
pub struct Report {
    text: String,
    aside: bool,
}

/// How wide the column of the names is.
const NAME: usize = 10;

impl Report {
    pub fn new(aside: bool) -> Report {
        let text = String::new();
        Report { text, aside }
    }

    /// A line with its name.
    pub fn line(&mut self, name: &str, words: String) {
        let name = self.paint(format!("{name:<NAME$}"), Style::new().bold());
        self.text.push_str(&format!("{name}{words}\n"));
    }

    /// A line that belongs to the one before.
    pub fn more(&mut self, words: String) {
        self.text.push_str(&format!("{:NAME$}{words}\n", ""));
    }

    /// Words in a style, where they go to a terminal.
    pub fn paint(&self, words: impl Display, style: Style) -> String {
        let style = if self.aside {
            style.for_stderr()
        } else {
            style
        };
        style.apply_to(words).to_string()
    }

    pub fn print(&self) -> Result<(), Fault> {
        match self.aside {
            true => printed(&mut io::stderr().lock(), &self.text),
            false => printed(&mut io::stdout().lock(), &self.text),
        }
    }
}

/// Prints a text. A reader that has gone away is no fault.
pub fn printed(to: &mut impl Write, text: &str) -> Result<(), Fault> {
    match to.write_all(text.as_bytes()).and_then(|()| to.flush()) {
        Err(error) if error.kind() != ErrorKind::BrokenPipe => {
            Err(Fault::because("the report cannot be printed")(error))
        }
        _ => Ok(()),
    }
}

/// All of a run.
pub fn of_run(
    played: &Played,
    play: &mut Play,
    ended: &Ended,
    before: &[u8],
    aside: bool,
) -> Report {
    let part = played.part;
    let mut report = Report::new(aside);
    report.line("part", made(played));
    ending(&mut report, ended, part.bus());
    let (count, bytes) = (HumanCount(play.count), HumanCount(play.bytes));
    report.line("count", format!("{count} events, {bytes} bytes"));
    warnings(&mut report, &play.warnings, part.bus());
    dump::changes(&mut report, before, &play.memory);
    let bits = play.saved_bits();
    let (srwd, bp1, bp0) = (bits >> 2 & 1, bits >> 1 & 1, bits & 1);
    report.line("bits", format!("{bits}: SRWD {srwd}, BP1 {bp1}, BP0 {bp0}"));
    report
}

/// The part as it was made.
fn made(played: &Played) -> String {
    let Played {
        part, pins, bits, ..
    } = played;
    let mut words = format!("{}, {part}", part.number());
    for (name, set) in [("pins", *pins), ("saved bits", *bits)] {
        if set != 0 {
            words.push_str(&format!(", {name} {set}"));
        }
    }
    words
}

/// How it ended, and of a refused event which it is.
pub fn ending(report: &mut Report, ended: &Ended, bus: Bus) {
    match ended {
        Ended::Whole => good(report, "0: every event was accepted"),
        Ended::Quota => good(report, "0: the quota was reached"),
        Ended::Refused(refused) => {
            let words = format!("{}: {}", refused.refusal.number(), refused.refusal);
            let words = report.paint(words, Style::new().red());
            report.line("ended", words);
            event(report, refused);
            let (at, field) = (refused.offset, field(refused, bus));
            report.line("offset", format!("{at}: {field}"));
        }
    }
}

fn good(report: &mut Report, words: &str) {
    let words = report.paint(words, Style::new().green());
    report.line("ended", words);
}

/// Which event was refused.
fn event(report: &mut Report, refused: &Refused) {
    let bytes: Vec<String> = refused.bytes.iter().map(|it| format!("{it:02X}")).collect();
    let what = match refused.bytes.first() {
        Some(0x01) => "power on of an SPI part",
        Some(0x02) => "power on of an I2C part",
        Some(0x03) => "power off",
        Some(0x04) => "sample",
        Some(0x05) => "expected answer",
        _ => "no event",
    };
    let (number, at, bytes) = (refused.event, refused.kind_at, bytes.join(" "));
    report.line(
        "event",
        format!("number {number}, at offset {at}: {bytes}, {what}"),
    );
}

/// The field at the offset of the run, and what is wrong with it.
fn field(refused: &Refused, bus: Bus) -> String {
    let byte = |place: usize| refused.bytes.get(place).copied().unwrap_or_default();
    let kind = byte(0);
    match refused.refusal {
        Refusal::Kind => format!("the kind, {kind:02X}, which {bus} parts do not have"),
        Refusal::Incomplete => {
            let (there, of) = (refused.bytes.len(), Event::length(kind).unwrap_or(1));
            format!("the kind, {kind:02X}, of an event of {of} bytes; {there} are there")
        }
        Refusal::Sample => {
            let most = match bus {
                Bus::Spi => 0x1f,
                Bus::I2c => 0x07,
            };
            format!("the sample, {:02X}, which is above {most:02X}", byte(1))
        }
        Refusal::StartAddress => {
            format!(
                "the start address, {:02X}{:02X}{:02X}h",
                byte(2),
                byte(3),
                byte(4)
            )
        }
        Refusal::ExpectedAnswer => format!("the expected answer, {:02X}", byte(1)),
        Refusal::OtherAnswer => {
            let expected = Answer::of_number(byte(1)).map_or('?', Answer::letter);
            format!(
                "the kind, {kind:02X}; {expected} is expected, the part answers {}",
                refused.answer
            )
        }
        _ => format!("the kind, {kind:02X}"),
    }
}

/// The samples that have the warning flag.
fn warnings(report: &mut Report, warnings: &Warnings, bus: Bus) {
    let what = match bus {
        Bus::Spi => "WP# moved in a selection",
        Bus::I2c => "WP moved in a transfer",
    };
    match warnings.count {
        0 => report.line("warnings", "none".into()),
        count => {
            let words = format!("{}: {what}", HumanCount(count));
            let words = report.paint(words, Style::new().yellow());
            report.line("warnings", words);
        }
    }
    for warning in &warnings.first {
        let (at, event) = (warning.offset, warning.event);
        report.more(format!("at offset {at}, event number {event}"));
    }
    match warnings.count - warnings.first.len() as u64 {
        0 => {}
        more => report.more(format!("and {} more", HumanCount(more))),
    }
}
