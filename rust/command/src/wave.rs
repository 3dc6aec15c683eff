//! `sildrokk wave`: the run of a trace as a waveform.

use crate::fault::Fault;
use crate::identity::InUse;
use crate::memory_file;
use crate::options::Wave;
use crate::output::is_standard;
use crate::play::{Ended, Play};
use crate::report::{self, Report};
use crate::run::made;
use crate::source::Source;
use crate::vcd::Vcd;
use indicatif::HumanCount;

/// Whether every event was accepted. The waveform ends before a refused one.
pub fn wave(wave: &Wave) -> Result<bool, Fault> {
    let played = &wave.played;
    let model = made(played.part, played.pins, played.bits)?;
    let mut in_use = InUse::default();
    let mut source = Source::open(&played.trace, &mut in_use)?;
    let memory = match &wave.memory {
        Some(path) => {
            let (memory, identity) = memory_file::contents(path, played.part.size())?;
            in_use.add(identity, "the memory")?;
            memory
        }
        None => vec![0; played.part.size()],
    };
    let mut vcd = Vcd::create(&wave.output, played.part, &mut in_use)?;
    let mut play = Play::new(model, played.part, memory, played.quota);
    let ended = play.play(&mut source, Some(&mut vcd))?;
    drop(source);
    vcd.finish()?;
    let mut report = Report::new(is_standard(&wave.output));
    report::ending(&mut report, &ended, played.part.bus());
    let count = HumanCount(play.count);
    report.line("count", format!("{count} events, one microsecond each"));
    report.print()?;
    Ok(!matches!(ended, Ended::Refused(_)))
}
