//! `sildrokk capture`: a logic analyser's capture as a trace.

mod map;
mod sigrok;
mod turns;
mod writer;

use crate::fault::Fault;
use crate::identity::InUse;
use crate::options::Capture;
use crate::output::{is_standard, Output};
use crate::report::Report;
use crate::run::made;
use indicatif::HumanCount;
use map::{Map, Words};
use sildrokk::{Bus, Model, Refusal};
use std::io::IsTerminal;
use turns::Turns;
use writer::{Answers, Chip, Tally, Writer};

/// How many samples are read at once.
const PIECE: usize = 1 << 16;

/// Always true: nothing is refused but by a fault.
pub fn capture(options: &Capture) -> Result<bool, Fault> {
    let model = checked(options)?;
    let words = Words::new(&options.map, options.part.bus())?;
    let mut in_use = InUse::default();
    in_use.add(sigrok::identity(&options.file)?, "the capture")?;
    let mut samples = sigrok::Capture::open(&options.file, options.format.as_deref())?;
    let map = words.with(&samples.channels)?;
    let mut output = Output::create(&options.output, &mut in_use, "the trace")?;
    let mut writer = Writer::new(options.part, options.start, answers(options, &map, model));
    let mut piece = vec![0; PIECE * samples.unit];
    while let read @ 1.. = samples.read(&mut piece)? {
        seen(&mut writer, &map, &piece[..read], samples.unit)?;
        output.write(&writer.taken())?;
    }
    let channels = samples.channels.len();
    samples.finish()?;
    output.finish()?;
    let mut report = Report::new(is_standard(&options.output));
    told(&mut report, &writer.tally, channels, map.has_output());
    report.print()?;
    Ok(true)
}

/// The samples of a piece, those that are alike at once.
fn seen(writer: &mut Writer, map: &Map, piece: &[u8], unit: usize) -> Result<(), Fault> {
    let units: Vec<&[u8]> = piece.chunks_exact(unit).collect();
    let mut alike = units.chunk_by(|one, two| one == two);
    alike.try_for_each(|alike| writer.seen(map.seen(alike[0]), alike.len() as u64))
}

/// Tests what can be tested before the capture is read; the part, just made.
fn checked(options: &Capture) -> Result<Model, Fault> {
    let Capture {
        part, pins, start, ..
    } = options;
    let model = made(*part, *pins, 0)?;
    let size = part.size();
    if *start as usize >= size {
        let (number, words) = (Refusal::StartAddress.number(), Refusal::StartAddress);
        return Err(Fault::new(format!(
            "{number}: {words}: {part} has {size} bytes"
        )));
    }
    if is_standard(&options.output) && std::io::stdout().is_terminal() {
        return Err(Fault::new(
            "a trace is no text for a terminal; -o names a file for it",
        ));
    }
    Ok(model)
}

fn answers(options: &Capture, map: &Map, model: Model) -> Answers {
    match (map.has_output(), options.part.bus()) {
        (false, _) => Answers::None,
        (true, Bus::Spi) => Answers::Spi(Box::new(Chip::new(options.part, model))),
        (true, Bus::I2c) => Answers::I2c(Turns::new(options.part, options.pins)),
    }
}

fn told(report: &mut Report, tally: &Tally, channels: usize, has_output: bool) {
    let count = |number: u64, what: &str| match number {
        1 => format!("1 {what}"),
        number => format!("{} {what}s", HumanCount(number)),
    };
    let read = count(tally.samples, "sample");
    report.line(
        "read",
        format!("{read} of {}", count(channels as u64, "channel")),
    );
    let (on, off) = (
        count(tally.power_ons, "power on"),
        count(tally.power_offs, "power off"),
    );
    report.line(
        "kept",
        format!("{on}, {}, {off}", count(tally.kept, "sample")),
    );
    let dropped = tally.samples - tally.power_ons - tally.power_offs - tally.kept;
    let dropped = count(dropped, "sample");
    report.line(
        "dropped",
        format!("{dropped} without power, or that change no wire of the part"),
    );
    if has_output {
        report.line(
            "answers",
            format!("{} put in", count(tally.answers, "expected answer")),
        );
    }
    report.line("trace", count(tally.bytes, "byte"));
}
