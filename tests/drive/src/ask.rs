//! One call on a model that a host holds, with what it lends besides state, memory and result: on the
//! proved build, and on the twin.

use crate::odd::Odd;
use crate::outcome::{result_of, LEFT};
use sildrokk::calls::{self, Lent, Room, RESULT};
use twin::{Model, Ran, Selected, NOTHING};

/// A call; room is how many bytes it may write besides.
#[derive(Clone, Debug)]
pub enum Ask {
    Event(Vec<u8>),
    Run {
        trace: Vec<u8>,
        quota: u64,
    },
    Replay {
        trace: Vec<u8>,
        quota: u64,
        room: usize,
    },
    Select {
        wp: u32,
        input: Vec<u8>,
        room: usize,
    },
}

/// What a call gives back besides state and memory.
#[derive(Clone, Debug, PartialEq, Eq)]
pub struct Gave {
    pub number: u8,
    pub result: Vec<u8>,
    /// The answers of a replay, or what came back of a selection.
    pub shown: Vec<u8>,
}

impl Ask {
    /// The call on the proved build, with a result of this length.
    pub fn call(&self, state: &mut [u8], memory: &mut [u8], result: usize) -> Gave {
        let mut result = vec![LEFT; result];
        let mut shown = vec![LEFT; self.room()];
        let lent = Lent {
            state,
            memory,
            result: result.as_mut_slice().into(),
        };
        let number = self.with_room(self.bytes(), shown.as_mut_slice().into(), lent);
        Gave {
            number,
            result,
            shown,
        }
    }

    /// The same call with every buffer at an odd address, since none needs an alignment.
    pub fn call_odd(&self, state: &mut Odd, memory: &mut Odd) -> Gave {
        let mut result = Odd::from(&[LEFT; RESULT][..]);
        let mut shown = Odd::from(&vec![LEFT; self.room()][..]);
        let lent = Lent {
            state,
            memory,
            result: (&mut *result).into(),
        };
        let number = self.with_room(&Odd::from(self.bytes()), (&mut *shown).into(), lent);
        Gave {
            number,
            result: result.to_vec(),
            shown: shown.to_vec(),
        }
    }

    /// The same call with nothing written to what it must not read, so that valgrind tells if it does.
    pub fn call_unread(&self, state: &mut [u8], memory: &mut [u8]) -> u8 {
        let mut result = Box::new_uninit_slice(RESULT);
        let mut shown = Box::new_uninit_slice(self.room());
        let lent = Lent {
            state,
            memory,
            result: (&mut *result).into(),
        };
        self.with_room(self.bytes(), (&mut *shown).into(), lent)
    }

    /// The call with its bytes wherever they are lent from.
    fn with_room(&self, bytes: &[u8], room: Room, lent: Lent) -> u8 {
        match self {
            Ask::Event(_) => calls::event(bytes, lent),
            Ask::Run { quota, .. } => calls::run(bytes, *quota, lent),
            Ask::Replay { quota, .. } => calls::replay(bytes, *quota, room, lent),
            Ask::Select { wp, .. } => calls::select(*wp, bytes, room, lent),
        }
    }

    /// The event, the trace or the input.
    fn bytes(&self) -> &[u8] {
        match self {
            Ask::Event(bytes)
            | Ask::Run { trace: bytes, .. }
            | Ask::Replay { trace: bytes, .. }
            | Ask::Select { input: bytes, .. } => bytes,
        }
    }

    fn room(&self) -> usize {
        match self {
            Ask::Event(_) | Ask::Run { .. } => 0,
            Ask::Replay { room, .. } | Ask::Select { room, .. } => *room,
        }
    }

    /// The call on the twin, with a result of 32 bytes.
    pub fn twin(&self, model: &mut Model, memory: &mut [u8]) -> Gave {
        let mut shown = vec![LEFT; self.room()];
        match self {
            Ask::Event(event) => of_event(model.event(event, memory)),
            Ask::Run { trace, quota } => {
                of_run(model.run_each(trace, *quota, memory, |_| ()), shown)
            }
            Ask::Replay { trace, quota, .. } => {
                let mut places = shown.iter_mut();
                let ran = model.run_each(trace, *quota, memory, |answer| {
                    if let Some(place) = places.next() {
                        *place = answer;
                    }
                });
                of_run(ran, shown)
            }
            Ask::Select { wp, input, .. } => {
                let selected = model.select(*wp != 0, input, &mut shown, memory);
                of_selection(selected, shown)
            }
        }
    }

    /// What the call gives if 2 or 3 refuses it, with a result of this length.
    pub fn refused(&self, number: u8, result: usize) -> Gave {
        let shown = vec![LEFT; self.room()];
        let refused = match self {
            Ask::Event(_) => of_event((number, NOTHING, false)),
            Ask::Run { trace, .. } | Ask::Replay { trace, .. } => {
                of_run(Ran::none(number, trace), shown)
            }
            Ask::Select { .. } => of_selection(Selected::refused(number), shown),
        };
        match result {
            RESULT => refused,
            other => Gave {
                result: vec![LEFT; other],
                ..refused
            },
        }
    }
}

fn of_event((number, answer, flag): (u8, u8, bool)) -> Gave {
    let mut result = vec![0; RESULT];
    result[..2].copy_from_slice(&[answer, u8::from(flag)]);
    Gave {
        number,
        result,
        shown: Vec::new(),
    }
}

fn of_run(ran: Ran, shown: Vec<u8>) -> Gave {
    Gave {
        number: ran.number,
        result: result_of(RESULT, &[ran.count, ran.offset, ran.flag]),
        shown,
    }
}

fn of_selection(selected: Selected, shown: Vec<u8>) -> Gave {
    Gave {
        number: selected.number,
        result: result_of(RESULT, &[selected.first, selected.count]),
        shown,
    }
}
