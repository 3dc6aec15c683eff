//! Calls drawn for one model, one after another: a generated trace as single events, by themselves and
//! in bursts, and in pieces, what is refused among them, and selections as bytes wherever they fall.

use crate::ask::{Ask, Gave};
use crate::refused;
use crate::Making;
use std::collections::VecDeque;
use twin::gen::{self, Knobs, Rng};
use twin::part::{spi_pin, Wires};
use twin::trace::events;
use twin::{Part, PARTS};

/// A burst has fewer single events than this: several commands or transfers.
const LONGEST: u64 = 600;

pub struct Mixed {
    part: &'static Part,
    pins: u32,
    /// What is left of a generated trace.
    rest: Vec<u8>,
    /// Calls that come before any other.
    queue: VecDeque<Ask>,
    /// How many single events come next, so that whole commands and transfers go by single events.
    burst: u64,
}

impl Mixed {
    pub fn new(making: Making) -> Mixed {
        Mixed {
            part: &PARTS[making.part as usize],
            pins: making.pins,
            rest: Vec::new(),
            queue: VecDeque::new(),
            burst: 0,
        }
    }

    /// The next call for the model, which has power or not.
    pub fn draw(&mut self, rng: &mut Rng, powered: bool) -> Ask {
        if let Some(ask) = self.queue.pop_front() {
            return ask;
        }
        if self.rest.is_empty() {
            self.refill(rng, powered);
        }
        if self.burst > 0 {
            self.burst -= 1;
            return self.single(rng);
        }
        match rng.below(80) {
            0 => {
                self.burst = rng.below(LONGEST);
                self.single(rng)
            }
            1..=35 => self.single(rng),
            36..=59 => self.piece(rng),
            60..=63 => run_or_event(rng, |rng| (0..rng.below(8)).map(|_| rng.byte()).collect()),
            64..=67 => run_or_event(rng, |rng| self.refused(rng)),
            _ => self.selection(rng),
        }
    }

    /// A trace for the part as it was made. Under power it comes after a power off, or goes on without
    /// its power on wherever the model is.
    fn refill(&mut self, rng: &mut Rng, powered: bool) {
        let knobs = Knobs {
            pins: self.pins,
            ..Knobs::draw(rng, self.part.number)
        };
        self.rest = gen::trace_with(rng, self.part.number, &knobs);
        if powered && rng.chance(500) {
            self.rest.insert(0, 3);
        } else if powered {
            let on = events(&self.rest).next().map_or(0, <[u8]>::len);
            self.rest.drain(..on);
        }
    }

    /// The trace's next event, alone or with some bytes after it.
    fn single(&mut self, rng: &mut Rng) -> Ask {
        let mut event = events(&self.rest).next().unwrap_or_default().to_vec();
        let more = rng.pick(&[0, 0, 0, 1, 5]);
        event.extend((0..more).map(|_| rng.byte()));
        Ask::Event(event)
    }

    /// A run of the trace's next bytes, which may end in the midst of an event; with answers or without,
    /// and with room for none, some or more than there are.
    fn piece(&mut self, rng: &mut Rng) -> Ask {
        let (short, few, some) = (rng.below(60), rng.below(40), rng.below(20));
        let length = rng.pick(&[short, 300]).min(self.rest.len() as u64);
        let trace = self.rest[..length as usize].to_vec();
        let quota = rng.pick(&[0, 1, few, length / 2, u64::MAX, u64::MAX]);
        let room = rng.pick(&[0, 1, some, length, length + 3]) as usize;
        if rng.chance(500) {
            Ask::Run { trace, quota }
        } else {
            Ask::Replay { trace, quota, room }
        }
    }

    fn refused(&self, rng: &mut Rng) -> Vec<u8> {
        let all = refused::events(self.part);
        all[rng.below(all.len() as u64) as usize].event.clone()
    }

    /// A selection where the model is, or after CS# has risen, and then often after an enable.
    fn selection(&mut self, rng: &mut Rng) -> Ask {
        let input = gen::selection_bytes(rng, self.part.number);
        let select = |rng: &mut Rng, input: Vec<u8>| {
            let other = rng.pick(&[0, input.len() + 1, 2 * input.len()]);
            Ask::Select {
                wp: rng.pick(&[0, 1, 256, u32::MAX]),
                room: if rng.chance(50) { other } else { input.len() },
                input,
            }
        };
        if self.part.wires == Wires::I2c || rng.chance(300) {
            return select(rng, input);
        }
        if rng.chance(500) {
            self.queue.push_back(select(rng, vec![6]));
        }
        self.queue.push_back(select(rng, input));
        Ask::Event(vec![4, rng.byte() & self.part.max_sample() | spi_pin::CS])
    }

    /// What the call took of the trace is gone from it; a refused run ends it.
    pub fn asked(&mut self, ask: &Ask, gave: &Gave) {
        match ask {
            Ask::Event(event) => {
                let event = events(event).next().unwrap_or_default();
                if self.rest.starts_with(event) {
                    self.rest.drain(..event.len());
                }
            }
            Ask::Run { trace, .. } | Ask::Replay { trace, .. } if self.rest.starts_with(trace) => {
                match gave.number {
                    0 => drop(self.rest.drain(..offset(gave))),
                    5 if trace.len() < self.rest.len() => {
                        drop(self.rest.drain(..offset(gave)));
                    }
                    _ => self.rest.clear(),
                }
            }
            _ => {}
        }
    }
}

/// Bytes as a single event, or as a run.
fn run_or_event(rng: &mut Rng, draw: impl FnOnce(&mut Rng) -> Vec<u8>) -> Ask {
    let bytes = draw(rng);
    if rng.chance(500) {
        return Ask::Event(bytes);
    }
    Ask::Replay {
        trace: bytes,
        quota: u64::MAX,
        room: 3,
    }
}

/// How many bytes the accepted events of a run take.
fn offset(gave: &Gave) -> usize {
    let bytes = gave.result[8..16].try_into();
    u64::from_be_bytes(bytes.expect("eight bytes")) as usize
}
