//! A trace of any length on one model, in pieces: a run of the whole is a run of its front followed by
//! one of the rest ('Runs' in docs/RULES.md).

use crate::fault::Fault;
use crate::source::Source;
use crate::warnings::{Moves, Warning, Warnings};
use sildrokk::trace::Event;
use sildrokk::{Answer, Model, Part, Ran, Refusal};

/// A model under way, with all that is told of it at the end.
pub struct Play {
    pub model: Model,
    pub memory: Vec<u8>,
    /// How many events were accepted, and how many bytes these have.
    pub count: u64,
    pub bytes: u64,
    pub warnings: Warnings,
    /// How many more events may be accepted.
    left: u64,
    moves: Moves,
    /// Room for the answers of a stretch, where somebody sees them.
    answers: Vec<u8>,
}

/// Somebody who sees each accepted event with its answer.
pub trait Watcher {
    /// The accepted events of one stretch of the trace, and the numbers of their answers. Where the
    /// warning flag is told by `warning`, no other of them has it.
    fn see(&mut self, events: &[u8], answers: &[u8], warning: Option<u64>) -> Result<(), Fault>;
}

/// How it ended.
pub enum Ended {
    Whole,
    Quota,
    Refused(Refused),
}

/// The event that was refused.
pub struct Refused {
    pub refusal: Refusal,
    /// Its number among the events, counted from 0.
    pub event: u64,
    /// Where its kind byte stands in the trace.
    pub kind_at: u64,
    /// Where the run points.
    pub offset: u64,
    /// Its bytes, as far as they are there; the kind byte alone of a kind that the part does not have.
    pub bytes: Vec<u8>,
    /// What the part answers at that moment.
    pub answer: Answer,
}

impl Play {
    pub fn new(model: Model, part: Part, memory: Vec<u8>, quota: Option<u64>) -> Play {
        Play {
            model,
            memory,
            count: 0,
            bytes: 0,
            warnings: Warnings::default(),
            left: quota.unwrap_or(u64::MAX),
            moves: Moves::new(part.bus()),
            answers: Vec::new(),
        }
    }

    /// Plays the trace to its end, the quota or a refused event.
    pub fn play(
        &mut self,
        source: &mut Source,
        mut watcher: Option<&mut dyn Watcher>,
    ) -> Result<Ended, Fault> {
        // Once the quota is reached nothing more is waited for.
        while self.left > 0 {
            let before = self.bytes;
            let (piece, last) = source.piece()?;
            if let Some(refused) = self.piece(piece, last, &mut watcher)? {
                return Ok(Ended::Refused(refused));
            }
            if last && self.left > 0 {
                return Ok(Ended::Whole);
            }
            source.played((self.bytes - before) as usize);
        }
        Ok(Ended::Quota)
    }

    /// Plays one piece up to the quota or a refused event, but for an event at its end of which bytes
    /// are missing and may still come.
    fn piece(
        &mut self,
        piece: &[u8],
        last: bool,
        watcher: &mut Option<&mut dyn Watcher>,
    ) -> Result<Option<Refused>, Fault> {
        let mut rest = piece;
        while !rest.is_empty() && self.left > 0 {
            let stretch = &rest[..self.moves.stretch(rest)];
            let ran = self.run(stretch, watcher)?;
            let accepted = self.add(&ran);
            match ran.refusal {
                Some(Refusal::Incomplete) if !last => break,
                Some(refusal) => {
                    let refused = self.refused(refusal, ran.offset, &rest[accepted..], accepted);
                    return Ok(Some(refused));
                }
                None => rest = &rest[accepted..],
            }
        }
        Ok(None)
    }

    /// A run of one stretch, seen by the watcher.
    fn run(
        &mut self,
        stretch: &[u8],
        watcher: &mut Option<&mut dyn Watcher>,
    ) -> Result<Ran, Fault> {
        let Some(watcher) = watcher else {
            return Ok(self.model.run(stretch, self.left, &mut self.memory));
        };
        // No event is shorter than a byte.
        if self.answers.len() < stretch.len() {
            self.answers.resize(stretch.len(), 0);
        }
        let (memory, answers) = (&mut self.memory, &mut self.answers);
        let ran = self.model.replay(stretch, self.left, memory, answers);
        let accepted = (ran.offset - behind_kind(ran.refusal)) as usize;
        watcher.see(
            &stretch[..accepted],
            &answers[..ran.count as usize],
            ran.warning,
        )?;
        Ok(ran)
    }

    /// Counts what a run accepted; how many bytes that is.
    fn add(&mut self, ran: &Ran) -> usize {
        if ran.warning.is_some() {
            // Only the first event of a stretch can have it.
            self.warnings.add(Warning {
                offset: self.bytes,
                event: self.count,
            });
        }
        let accepted = ran.offset - behind_kind(ran.refusal);
        self.count += ran.count;
        self.left -= ran.count;
        self.bytes += accepted;
        accepted as usize
    }

    /// What is told of a refused event: the run's offset is counted from the front of its stretch, of
    /// which so many bytes were accepted.
    fn refused(&mut self, refusal: Refusal, offset: u64, rest: &[u8], accepted: usize) -> Refused {
        // A kind that the part does not have is refused before its length is looked at; what stands
        // behind it may not have come yet.
        let length = match refusal {
            Refusal::Kind => 1,
            _ => Event::length(rest[0]).unwrap_or(1),
        };
        Refused {
            refusal,
            event: self.count,
            kind_at: self.bytes,
            offset: self.bytes + (offset - accepted as u64),
            bytes: rest[..length.min(rest.len())].to_vec(),
            answer: self.answer(),
        }
    }

    /// What the part answers now: the one expected answer that it takes, and nothing without power.
    fn answer(&mut self) -> Answer {
        let all = [Answer::Low, Answer::High, Answer::Nothing];
        let mut takes = |answer: &Answer| {
            let mut asked = self.model.clone();
            asked
                .event(&[0x05, *answer as u8], &mut self.memory)
                .is_ok()
        };
        all.into_iter()
            .find(|it| takes(it))
            .unwrap_or(Answer::Nothing)
    }

    /// SRWD, BP1 and BP0 as a cut of power at this moment would leave them.
    pub fn saved_bits(&mut self) -> u32 {
        let mut cut = self.model.clone();
        // Without power the cut is refused, and the bits are those that it has.
        let _ = cut.event(&[0x03], &mut self.memory);
        cut.bits()
    }
}

/// How many bytes behind the kind byte the offset of a run with this refusal points.
fn behind_kind(refusal: Option<Refusal>) -> u64 {
    match refusal {
        Some(Refusal::Sample | Refusal::ExpectedAnswer) => 1,
        Some(Refusal::StartAddress) => 2,
        _ => 0,
    }
}
