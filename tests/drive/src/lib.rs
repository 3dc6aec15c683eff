//! The proved build behind its five C functions (include/sildrokk.h), and what the checks share:
//! masters that write traces down, and calls that are compared with the twin. What is called is
//! `sildrokk::calls`, and not the `Model` above it: the checks ask for the numbers as they come, for
//! buffers of any length and for what is left in them.

#![deny(unsafe_code)]

pub mod ask;
pub mod bad;
pub mod bad_bytes;
pub mod byte_call;
pub mod call;
pub mod field;
pub mod flags;
pub mod held;
pub mod late;
pub mod lengths;
pub mod loaded;
pub mod made_up;
pub mod mixed;
pub mod more;
pub mod odd;
pub mod outcome;
pub mod phases;
mod quota;
pub mod reached;
pub mod refused;
pub mod renumber;
pub mod script;
mod singly;
pub mod streams;
pub mod tally;
pub mod told;
pub mod tried;
pub mod unread;
pub mod waits;

pub use twin::{Ran, Selected};

use outcome::LEFT;
use sildrokk::calls::{self, Lent, Room, STATE};
use twin::{Part, PARTS};

/// What a model is made of; any numbers.
#[derive(Clone, Copy, Debug, PartialEq, Eq)]
pub struct Making {
    pub part: u32,
    pub pins: u32,
    pub bits: u32,
}

impl Making {
    pub fn new(part: u32, pins: u32, bits: u32) -> Making {
        Making { part, pins, bits }
    }

    /// Made by the proved build into this room: the number that it returns.
    pub fn make(self, state: Room) -> u8 {
        calls::make(self.part, self.pins, self.bits, state)
    }
}

/// Every making that a part can have.
pub fn good_makings() -> Vec<Making> {
    let of_part = |part: &Part| {
        let number = part.number;
        let pins = (0..=part.max_pins).map(move |pins| Making::new(number, pins, 0));
        let bits = (1..=part.max_bits).map(move |bits| Making::new(number, 0, bits));
        pins.chain(bits)
    };
    PARTS.iter().flat_map(of_part).collect()
}

impl std::fmt::Display for Making {
    fn fmt(&self, to: &mut std::fmt::Formatter<'_>) -> std::fmt::Result {
        let Making { part, pins, bits } = self;
        write!(to, "part {part} pins {pins} bits {bits}")
    }
}

/// The state that the proved build makes; the making is one that a part can have.
pub fn made(making: Making) -> Vec<u8> {
    let mut state = vec![LEFT; STATE];
    let number = making.make(state.as_mut_slice().into());
    assert_eq!(number, 0, "{making}");
    state
}

/// A run of the proved build from a making, with a result that it fills.
pub fn run(
    making: Making,
    quota: u64,
    trace: &[u8],
    memory: &mut [u8],
    answers: Option<&mut [u8]>,
) -> Ran {
    run_on(&mut made(making), quota, trace, memory, answers)
}

/// The same on a state, which it leaves as the run has it.
pub fn run_on(
    state: &mut [u8],
    quota: u64,
    trace: &[u8],
    memory: &mut [u8],
    answers: Option<&mut [u8]>,
) -> Ran {
    let mut result = [UNWRITTEN; 4];
    let lent = Lent {
        state,
        memory,
        result: result.as_flattened_mut().into(),
    };
    let number = match answers {
        None => calls::run(trace, quota, lent),
        Some(answers) => calls::replay(trace, quota, answers.into(), lent),
    };
    let [count, offset, flag, rest] = result.map(u64::from_be_bytes);
    assert_eq!(rest, 0, "the result behind its numbers");
    Ran {
        number,
        count,
        offset,
        flag,
    }
}

/// A selection as bytes of the proved build after a trace, all on one state. A trace that is refused
/// gives its number, and nothing is selected.
pub fn select(
    making: Making,
    trace: &[u8],
    wp: u32,
    input: &[u8],
    output: &mut [u8],
    memory: &mut [u8],
) -> Selected {
    let mut state = made(making);
    match run_on(&mut state, u64::MAX, trace, memory, None).number {
        0 => select_on(&mut state, wp, input, output, memory),
        number => Selected::refused(number),
    }
}

/// A selection as bytes on a state, which it leaves as the selection has it.
pub fn select_on(
    state: &mut [u8],
    wp: u32,
    input: &[u8],
    output: &mut [u8],
    memory: &mut [u8],
) -> Selected {
    let mut result = [UNWRITTEN; 4];
    let lent = Lent {
        state,
        memory,
        result: result.as_flattened_mut().into(),
    };
    let number = calls::select(wp, input, output.into(), lent);
    let [first, count, rest @ ..] = result.map(u64::from_be_bytes);
    assert_eq!(rest, [0, 0], "the result behind its numbers");
    Selected {
        number,
        first,
        count,
    }
}

/// Eight bytes of a result before the call: not zeros, so that one that isn't written is seen.
const UNWRITTEN: [u8; 8] = [0xff; 8];
