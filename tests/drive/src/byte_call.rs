//! One selection as bytes on the proved build and on the twin, compared in all that a host can see;
//! then with the proved build's own pins, and its memory with the ledger's.

use crate::call::Call;
use crate::outcome::{first_difference, result_of, Outcome, LEFT};
use crate::{made, run_on, Making, Ran, Selected};
use sildrokk::calls::{self, Lent, RESULT};
use std::fmt;
use twin::gen::ByteCase;
use twin::image::encode;
use twin::pins::{bits_back, bytes_back, spelled};
use twin::text::{first_byte, first_memory, hex};
use twin::trace::after;
use twin::{Model, PARTS};

/// A call of `sildrokk_select` on the state that a trace leaves, up to its end or to an event that is
/// refused; with the lengths of what it lends to be written. The trace is run on the first memory of
/// the vectors; what the selection is then lent is that memory, cut off or made longer.
#[derive(Clone, Debug)]
pub struct ByteCall {
    pub making: Making,
    pub trace: Vec<u8>,
    pub wp: u32,
    pub input: Vec<u8>,
    pub output: usize,
    pub memory: usize,
    pub result: usize,
}

/// What all gave.
#[derive(Clone, Copy, Debug, PartialEq, Eq)]
pub struct BytesAgreed {
    /// The run of the trace before the selection.
    pub before: Ran,
    pub selected: Selected,
    /// Bytes of memory that differ from the first.
    pub changed: u64,
    /// Bytes that the selection stored, as the ledger tells.
    pub stored: u64,
}

impl ByteCall {
    /// A selection with a buffer of its length and a memory of the part's size.
    pub fn whole(making: Making, trace: Vec<u8>, wp: u32, input: Vec<u8>) -> ByteCall {
        ByteCall {
            making,
            trace,
            wp,
            output: input.len(),
            input,
            memory: PARTS[making.part as usize].size,
            result: RESULT,
        }
    }

    pub fn of(case: ByteCase) -> ByteCall {
        let making = Making::new(case.part, case.pins, case.bits);
        ByteCall {
            output: case.length,
            ..ByteCall::whole(making, case.trace, case.wp, case.input)
        }
    }

    /// What all gave, or a line that says in what they differ.
    pub fn compare(&self) -> Result<BytesAgreed, String> {
        let (before, ours) = self.proved();
        let (same_before, selected, theirs) = self.twin();
        if before != same_before {
            return Err(format!("before: {before:?} and not {same_before:?}"));
        }
        if let Some(difference) = ours.difference(&theirs, "output byte") {
            return Err(difference);
        }
        let stored = match selected.number {
            2 | 3 => Ok(0),
            _ => self.compare_pins(before.count, &selected, &ours),
        };
        Ok(BytesAgreed {
            before,
            selected,
            changed: ours.changed(),
            stored: stored.map_err(|difference| format!("by pins: {difference}"))?,
        })
    }

    /// So many events of the trace as a run, followed by those of the selection if it was taken: state
    /// and memory are the same, and so is what came back. No sample of the selection has the flag,
    /// since its WP# is still between the fall and the rise of CS#. How many bytes the selection
    /// stored.
    fn compare_pins(
        &self,
        before: u64,
        selected: &Selected,
        ours: &Outcome,
    ) -> Result<u64, String> {
        let (accepted, _) = after(&self.trace, before);
        let mut trace = self.trace[..accepted as usize].to_vec();
        if selected.number == 0 {
            trace.extend(spelled(self.wp != 0, &self.input));
        }
        let call = Call::whole(self.making, trace);
        let (agreed, left) = call.compare_left()?;
        if agreed.ran.number != 0 {
            return Err(format!("{:?}", agreed.ran));
        }
        let in_state = first_difference("state byte", &left.state, &ours.state);
        let in_memory = first_difference("memory byte", &left.memory, &ours.memory);
        if let Some(difference) = in_state.or(in_memory) {
            return Err(difference);
        }
        if selected.number != 0 {
            return Ok(0);
        }
        if agreed.flagged.is_some_and(|place| place >= before) {
            return Err(format!("{:?}, a flag in the selection", agreed.ran));
        }
        let answers = left.shown.as_deref().unwrap_or_default();
        self.compare_bits(&answers[before as usize..], selected, ours)?;
        let stored_before = call.ledger(before, answers).ledger.stored();
        Ok(agreed.stored - stored_before)
    }

    /// What came back and the two figures, by the answers of the selection's samples.
    fn compare_bits(
        &self,
        answers: &[u8],
        selected: &Selected,
        ours: &Outcome,
    ) -> Result<(), String> {
        let (output, figures) = bytes_back(&bits_back(answers, self.input.len()));
        let output_of_bytes = ours.shown.as_deref().unwrap_or_default();
        if let Some(difference) = first_difference("output byte", &output, output_of_bytes) {
            return Err(difference);
        }
        if figures != *selected {
            let Selected { first, count, .. } = figures;
            return Err(format!("{count} driven from {first} on"));
        }
        Ok(())
    }

    fn proved(&self) -> (Ran, Outcome) {
        let mut state = made(self.making);
        let mut memory = self.first();
        let before = run_on(&mut state, u64::MAX, &self.trace, &mut memory, None);
        let mut memory = self.lent(memory);
        let mut output = vec![LEFT; self.output];
        let mut result = vec![LEFT; self.result];
        let lent = Lent {
            state: &mut state,
            memory: &mut memory,
            result: result.as_mut_slice().into(),
        };
        let number = calls::select(self.wp, &self.input, output.as_mut_slice().into(), lent);
        let outcome = Outcome {
            number,
            state,
            memory,
            shown: Some(output),
            result,
        };
        (before, outcome)
    }

    fn twin(&self) -> (Ran, Selected, Outcome) {
        let Making { part, pins, bits } = self.making;
        let (_, mut model) = Model::make(part, pins, bits);
        let mut memory = self.first();
        let before = model.run_each(&self.trace, u64::MAX, &mut memory, |_| ());
        let mut memory = self.lent(memory);
        let mut output = vec![LEFT; self.output];
        let selected = match self.result {
            RESULT => model.select(self.wp != 0, &self.input, &mut output, &mut memory),
            _ => Selected::refused(2),
        };
        let outcome = Outcome {
            number: selected.number,
            state: encode(&model).to_vec(),
            memory,
            shown: Some(output),
            result: result_of(self.result, &[selected.first, selected.count]),
        };
        (before, selected, outcome)
    }

    fn first(&self) -> Vec<u8> {
        first_memory(PARTS[self.making.part as usize].size)
    }

    /// The memory as long as the selection is lent it, with no byte to spare.
    fn lent(&self, mut memory: Vec<u8>) -> Vec<u8> {
        memory.truncate(self.memory);
        memory.extend((memory.len()..self.memory).map(first_byte));
        memory.shrink_to_fit();
        memory
    }
}

/// Enough to make the call again by hand.
impl fmt::Display for ByteCall {
    fn fmt(&self, to: &mut fmt::Formatter<'_>) -> fmt::Result {
        write!(to, "{} wp {}, ", self.making, self.wp)?;
        write!(to, "lengths: output {}, ", self.output)?;
        write!(to, "memory {}, result {}; ", self.memory, self.result)?;
        write!(to, "trace {}; ", hex(&self.trace))?;
        write!(to, "input {}", hex(&self.input))
    }
}
