//! A model as a host holds it, and the same model on both sides, compared after every call.

use crate::ask::{Ask, Gave};
use crate::odd::Odd;
use crate::outcome::first_difference;
use crate::{made, Making};
use sildrokk::calls::{Lent, RESULT};
use twin::image::encode;
use twin::text::first_memory;
use twin::{Model, PARTS};

/// State and memory: all that there is of a model, so that a copy is a model of its own.
#[derive(Clone, Debug, PartialEq, Eq)]
pub struct Held {
    pub state: Vec<u8>,
    pub memory: Vec<u8>,
}

impl Held {
    /// A part just made, with the first memory of the vectors.
    pub fn new(making: Making) -> Held {
        Held {
            state: made(making),
            memory: first_memory(PARTS[making.part as usize].size),
        }
    }

    pub fn ask(&mut self, ask: &Ask) -> Gave {
        ask.call(&mut self.state, &mut self.memory, RESULT)
    }

    /// State and memory as a call is lent them, with a result.
    pub fn lent<'a>(&'a mut self, result: &'a mut [u8]) -> Lent<'a> {
        Lent {
            state: &mut self.state,
            memory: &mut self.memory,
            result: result.into(),
        }
    }
}

/// The proved build's model, and the twin's with a memory of its own.
pub struct Pair {
    pub held: Held,
    pub model: Model,
    memory: Vec<u8>,
}

impl Pair {
    pub fn new(making: Making) -> Pair {
        let held = Held::new(making);
        let Making { part, pins, bits } = making;
        Pair {
            model: Model::make(part, pins, bits).1,
            memory: held.memory.clone(),
            held,
        }
    }

    /// What both gave, with the same state and memory left; or in what they differ. The proved build
    /// is asked twice, the first time on a copy, and there with every buffer at an odd address.
    pub fn ask(&mut self, ask: &Ask) -> Result<Gave, String> {
        let mut state = Odd::from(&self.held.state[..]);
        let mut memory = Odd::from(&self.held.memory[..]);
        let first = ask.call_odd(&mut state, &mut memory);
        let gave = self.held.ask(ask);
        if gave != first || self.held.state != *state || self.held.memory != *memory {
            return Err(format!("{gave:x?}, and on a copy {first:x?}"));
        }
        let theirs = ask.twin(&mut self.model, &mut self.memory);
        if gave != theirs {
            return Err(format!("{gave:x?} and not {theirs:x?}"));
        }
        let Held { state, memory } = &self.held;
        let in_state = first_difference("state byte", state, &encode(&self.model));
        match in_state.or(first_difference("memory byte", memory, &self.memory)) {
            Some(difference) => Err(difference),
            None => Ok(gave),
        }
    }
}
