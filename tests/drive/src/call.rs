//! One run of the proved build from a making and the same run of the twin, compared in all that a
//! host can see; then its offsets with what the bytes tell, and its memory and flag offset with the
//! ledger's.

use crate::field::{self, bad_field};
use crate::outcome::{first_difference, result_of, Outcome, LEFT};
use crate::told::Told;
use crate::{made, Making, Ran};
use sildrokk::calls::{self, Lent, RESULT};
use std::fmt;
use twin::gen::Case;
use twin::image::encode;
use twin::text::{first_memory, hex};
use twin::trace::{after, events};
use twin::{Model, PARTS};

/// A call on a state just made, with the lengths of what it lends. The memory is the first memory of
/// the vectors.
#[derive(Clone, Debug)]
pub struct Call {
    pub making: Making,
    pub quota: u64,
    pub trace: Vec<u8>,
    pub memory: usize,
    /// None for `sildrokk_run`.
    pub answers: Option<usize>,
    pub result: usize,
}

/// What both gave.
#[derive(Clone, Copy, Debug, PartialEq, Eq)]
pub struct Agreed {
    pub ran: Ran,
    /// The first event with the flag, counted from 0.
    pub flagged: Option<u64>,
    /// Bytes of memory that differ from the first.
    pub changed: u64,
    /// Bytes stored, where the call has room for all answers, so that the ledger can tell.
    pub stored: u64,
}

impl Call {
    /// The whole trace, in a memory of the part's size, with room for all answers and one more.
    pub fn whole(making: Making, trace: Vec<u8>) -> Call {
        Call {
            making,
            quota: u64::MAX,
            memory: PARTS[making.part as usize].size,
            answers: Some(trace.len() + 1),
            result: RESULT,
            trace,
        }
    }

    pub fn of(case: Case) -> Call {
        Call::whole(Making::new(case.part, case.pins, case.bits), case.trace)
    }

    /// The same call of `sildrokk_run`, stopped after so many events.
    pub fn stopped(&self, quota: u64) -> Call {
        Call {
            quota,
            answers: None,
            ..self.clone()
        }
    }

    /// What both gave, or a line that says in what they differ.
    pub fn compare(&self) -> Result<Agreed, String> {
        self.compare_left().map(|(agreed, _)| agreed)
    }

    /// The same, with what is left behind.
    pub(crate) fn compare_left(&self) -> Result<(Agreed, Outcome), String> {
        let ours = self.proved();
        let (ran, theirs) = self.twin();
        if let Some(difference) = ours.difference(&theirs, "answer") {
            return Err(difference);
        }
        self.placed(&ran)?;
        let stored = match &ours.shown {
            Some(answers) if ran.count <= answers.len() as u64 => {
                self.told(&ran, answers, &ours.memory)?
            }
            _ => 0,
        };
        let agreed = Agreed {
            ran,
            flagged: self.flagged(&ran)?,
            changed: ours.changed(),
            stored,
        };
        Ok((agreed, ours))
    }

    /// Whether the number is that of a bad field, and the offset its first byte's, just where the
    /// bytes of the refused event say so. Both sides could be wrong here in the same way.
    fn placed(&self, ran: &Ran) -> Result<(), String> {
        let (kind_byte, event) = after(&self.trace, ran.count);
        let refused = event.filter(|_| ran.number > 3);
        let bad = refused.and_then(|event| bad_field(&PARTS[self.making.part as usize], event));
        let number = Some(ran.number).filter(|number| field::NUMBERS.contains(number));
        let offset = kind_byte + bad.map_or(0, |bad| bad.place as u64);
        if (number, ran.offset) == (bad.map(|bad| bad.number), offset) {
            Ok(())
        } else {
            Err(format!("{ran:?}, and the bytes say {bad:?} at {offset}"))
        }
    }

    /// The event that the flag offset names, counted from 0; none if it is the trace's length. By the
    /// bytes it can only be the kind byte of a sample that was accepted.
    fn flagged(&self, ran: &Ran) -> Result<Option<u64>, String> {
        if ran.flag == self.trace.len() as u64 {
            return Ok(None);
        }
        let mut at = 0;
        for (place, event) in (0..ran.count).zip(events(&self.trace)) {
            if at == ran.flag && event[0] == 4 {
                return Ok(Some(place));
            }
            at += event.len() as u64;
        }
        Err(format!("{ran:?}, and its flag is at no accepted sample"))
    }

    /// What the ledger of the accepted events says was stored, if it has the same memory and the same
    /// flag offset.
    fn told(&self, ran: &Ran, answers: &[u8], memory: &[u8]) -> Result<u64, String> {
        let told = self.ledger(ran.count, answers);
        let flag = told.flag(&self.trace);
        if flag != ran.flag {
            return Err(format!("{ran:?}, and the ledger has the flag at {flag}"));
        }
        match first_difference("memory byte", memory, told.ledger.memory()) {
            Some(difference) => Err(format!("{difference}, says the ledger")),
            None => Ok(told.ledger.stored()),
        }
    }

    /// The ledger of so many events, all accepted with these answers.
    pub(crate) fn ledger(&self, count: u64, answers: &[u8]) -> Told {
        let mut told = Told::begin(self.making, &first_memory(self.memory));
        let accepted = events(&self.trace).take(count as usize);
        for (event, &answer) in accepted.zip(answers) {
            told.feed(event, answer);
        }
        told
    }

    pub(crate) fn proved(&self) -> Outcome {
        let mut state = made(self.making);
        let mut memory = first_memory(self.memory);
        let mut answers = self.answers.map(|length| vec![LEFT; length]);
        let mut result = vec![LEFT; self.result];
        let lent = Lent {
            state: &mut state,
            memory: &mut memory,
            result: result.as_mut_slice().into(),
        };
        let (trace, quota) = (&self.trace[..], self.quota);
        let number = match &mut answers {
            None => calls::run(trace, quota, lent),
            Some(answers) => calls::replay(trace, quota, answers.as_mut_slice().into(), lent),
        };
        Outcome {
            number,
            state,
            memory,
            shown: answers,
            result,
        }
    }

    /// With a result of another length nothing is run, and so nothing has the flag.
    fn twin(&self) -> (Ran, Outcome) {
        let Making { part, pins, bits } = self.making;
        let (_, mut model) = Model::make(part, pins, bits);
        let mut memory = first_memory(self.memory);
        let mut answers = Vec::new();
        let ran = match self.result {
            RESULT => model.run(&self.trace, self.quota, &mut memory, &mut answers),
            _ => Ran::none(2, &self.trace),
        };
        let outcome = Outcome {
            number: ran.number,
            state: encode(&model).to_vec(),
            memory,
            shown: self.answers.map(|length| {
                answers.resize(length, LEFT);
                answers
            }),
            result: result_of(self.result, &[ran.count, ran.offset, ran.flag]),
        };
        (ran, outcome)
    }
}

/// Enough to make the call again by hand.
impl fmt::Display for Call {
    fn fmt(&self, to: &mut fmt::Formatter<'_>) -> fmt::Result {
        write!(to, "{} quota {}, ", self.making, self.quota)?;
        write!(to, "lengths: memory {}, answers ", self.memory)?;
        match self.answers {
            Some(answers) => write!(to, "{answers}")?,
            None => write!(to, "none")?,
        }
        write!(to, ", result {}; trace {}", self.result, hex(&self.trace))
    }
}
