//! `sildrokk run`: a trace on a part with its memory file.

use crate::answers::Letters;
use crate::fault::Fault;
use crate::identity::InUse;
use crate::memory_file::{Kept, MemoryFile};
use crate::options::Run;
use crate::output::is_standard;
use crate::play::{Ended, Play, Watcher};
use crate::report;
use crate::source::Source;
use sildrokk::{Model, Part};

/// Whether every event was accepted. The memory is replaced once all else but the report is done.
pub fn run(run: &Run) -> Result<bool, Fault> {
    let played = &run.played;
    let model = made(played.part, played.pins, played.bits)?;
    let mut in_use = InUse::default();
    let mut source = Source::open(&played.trace, &mut in_use)?;
    let (file, before) = opened(run, &mut in_use)?;
    let letters = |path| Letters::create(path, &mut in_use);
    let mut answers = run.answers.as_deref().map(letters).transpose()?;
    let mut play = Play::new(model, played.part, before.clone(), played.quota);
    let watcher = answers.as_mut().map(|it| it as &mut dyn Watcher);
    let ended = play.play(&mut source, watcher)?;
    drop(source);
    answers.map_or(Ok(()), Letters::finish)?;
    let kept = file.map_or(Ok(Kept::Unchanged), |file| file.keep(&before, &play.memory))?;
    let aside = run.answers.as_deref().is_some_and(is_standard);
    let report = report::of_run(played, &mut play, &ended, &before, aside);
    report.print().map_err(|fault| after(fault, kept))?;
    Ok(!matches!(ended, Ended::Refused(_)))
}

/// The memory file, if there is to be one, and what the part's memory holds.
fn opened(run: &Run, in_use: &mut InUse) -> Result<(Option<MemoryFile>, Vec<u8>), Fault> {
    let size = run.played.part.size();
    let Some(path) = &run.memory else {
        return Ok((None, vec![0; size]));
    };
    let (file, memory) = MemoryFile::open(path, size)?;
    in_use.add(file.identity(), "the memory")?;
    Ok((Some(file), memory))
}

/// A part, made as the options say.
pub fn made(part: Part, pins: u32, bits: u32) -> Result<Model, Fault> {
    Model::new(part, pins, bits).map_err(|refusal| {
        let (number, most_pins, most_bits) = (refusal.number(), part.max_pins(), part.max_bits());
        Fault::new(format!(
            "{number}: {refusal}: {part} takes pins up to {most_pins} and saved bits up to {most_bits}"
        ))
    })
}

/// A report that could not be printed comes after the memory was replaced.
fn after(fault: Fault, kept: Kept) -> Fault {
    match kept {
        Kept::Replaced => Fault::new(format!("{fault}; the memory file is replaced")),
        Kept::Unchanged => fault,
    }
}
