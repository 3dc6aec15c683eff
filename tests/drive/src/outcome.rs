//! What a call leaves behind, and the first thing in which two of these differ.

use sildrokk::calls::RESULT;
use twin::text::changed_cells;

/// What is lent to be written is filled with this, so that a byte left as it is can be told.
pub const LEFT: u8 = 0xa5;

/// All that a host can see of a call.
#[derive(PartialEq, Eq)]
pub struct Outcome {
    pub number: u8,
    pub state: Vec<u8>,
    pub memory: Vec<u8>,
    /// The answers of a run, where they are asked for, or what came back of a selection.
    pub shown: Option<Vec<u8>>,
    pub result: Vec<u8>,
}

impl Outcome {
    /// The first thing in which ours differs from theirs, if they do; what is shown goes by its name.
    pub fn difference(&self, theirs: &Outcome, shown: &str) -> Option<String> {
        if self == theirs {
            return None;
        }
        if self.number != theirs.number {
            return Some(format!("number {} and not {}", self.number, theirs.number));
        }
        if self.result != theirs.result {
            let (ours, theirs) = (&self.result, &theirs.result);
            return Some(format!("result {ours:02x?} and not {theirs:02x?}"));
        }
        let (ours, others) = (self.shown.as_deref(), theirs.shown.as_deref());
        first_difference(shown, ours.unwrap_or(&[]), others.unwrap_or(&[]))
            .or_else(|| first_difference("state byte", &self.state, &theirs.state))
            .or_else(|| first_difference("memory byte", &self.memory, &theirs.memory))
            .or(Some(String::from("lengths")))
    }

    /// Bytes of memory that differ from the first.
    pub fn changed(&self) -> u64 {
        changed_cells(&self.memory).len() as u64
    }
}

pub fn first_difference(what: &str, ours: &[u8], theirs: &[u8]) -> Option<String> {
    // Mostly so, and told much sooner than byte by byte.
    if ours == theirs {
        return None;
    }
    let at = ours.iter().zip(theirs).position(|(one, two)| one != two)?;
    let (one, two) = (ours[at], theirs[at]);
    Some(format!("{what} {at:#x} is {one:02x} and not {two:02x}"))
}

/// Numbers of eight bytes, most significant first, and then zeros, if the result has its length; any
/// other is left.
pub fn result_of(length: usize, numbers: &[u64]) -> Vec<u8> {
    if length != RESULT {
        return vec![LEFT; length];
    }
    let mut result: Vec<u8> = numbers.iter().flat_map(|it| it.to_be_bytes()).collect();
    result.resize(length, 0);
    result
}
