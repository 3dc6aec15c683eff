//! "Models and events" and "Numbers given back": making, one event, a selection as bytes, and
//! trace runs.

use crate::bytes::Selected;
use crate::event::{read, Event, Given, Refused};
use crate::i2c::I2c;
use crate::part::{Part, Wires, PARTS};
use crate::spi::Spi;
use crate::NOTHING;

#[derive(Clone, Debug, PartialEq, Eq)]
pub(crate) enum Power {
    Off,
    Spi(Spi),
    I2c(I2c),
}

/// A model. Its states are those that have an image, so the numbers 1 and 2 arise only at making.
#[derive(Clone, Debug, PartialEq, Eq)]
pub struct Model {
    pub(crate) part: &'static Part,
    pub(crate) pins: u8,
    /// SRWD BP1 BP0 as kept without power; under power the bus holds them, and here is 0.
    pub(crate) saved: u8,
    pub(crate) power: Power,
}

/// What a run gives back besides the model.
#[derive(Clone, Copy, Debug, PartialEq, Eq)]
pub struct Ran {
    /// The number of the refused event, or 0.
    pub number: u8,
    /// Accepted events.
    pub count: u64,
    /// The first kind byte not accepted, or the trace's length; for 6, 10 and 11 the first byte of
    /// the bad field.
    pub offset: u64,
    /// The kind byte of the first accepted event with the warning flag, or the trace's length.
    pub flag: u64,
}

impl Ran {
    /// A run of a trace that is refused before its first event (1 to 3), or has none to run (0).
    pub fn none(number: u8, trace: &[u8]) -> Ran {
        Ran {
            number,
            count: 0,
            offset: 0,
            flag: trace.len() as u64,
        }
    }
}

impl Model {
    /// Number 1 for what the table does not allow; the model is then that of part 0.
    pub fn make(part: u32, pins: u32, bits: u32) -> (u8, Model) {
        let known = PARTS.get(part as usize);
        match known.filter(|part| pins <= part.max_pins && bits <= part.max_bits) {
            Some(part) => (0, Model::unpowered(part, pins as u8, bits as u8)),
            None => (1, Model::unpowered(&PARTS[0], 0, 0)),
        }
    }

    pub(crate) fn unpowered(part: &'static Part, pins: u8, saved: u8) -> Model {
        Model {
            part,
            pins,
            saved,
            power: Power::Off,
        }
    }

    pub fn part(&self) -> &'static Part {
        self.part
    }

    pub fn pins(&self) -> u32 {
        u32::from(self.pins)
    }

    /// SRWD BP1 BP0 as they stand.
    pub fn bits(&self) -> u8 {
        match &self.power {
            Power::Spi(spi) => spi.bits(),
            Power::Off | Power::I2c(_) => self.saved,
        }
    }

    pub fn powered(&self) -> bool {
        self.power != Power::Off
    }

    /// The present answer.
    pub fn answer(&self) -> u8 {
        match &self.power {
            Power::Off => NOTHING,
            Power::Spi(spi) => spi.answer(),
            Power::I2c(i2c) => i2c.answer(),
        }
    }

    /// One event from the front of the bytes: number, answer and warning flag. A refused event
    /// leaves the model and the memory as they were, answers 2 and warns of nothing.
    pub fn event(&mut self, bytes: &[u8], memory: &mut [u8]) -> (u8, u8, bool) {
        if memory.len() != self.part.size {
            return (3, NOTHING, false);
        }
        match self.step(bytes, memory) {
            Ok((given, _)) => (0, given.answer, given.flag),
            Err(refused) => (refused.number, NOTHING, false),
        }
    }

    /// A selection as bytes: 3, then 4 on I2C even without power, 12 unless a powered part has CS#
    /// 1, and 13 for an output of another length. A refusal leaves all that was lent as it was. It
    /// warns of nothing, since WP# is the same from the fall of CS# to its rise.
    pub fn select(
        &mut self,
        wp: bool,
        input: &[u8],
        output: &mut [u8],
        memory: &mut [u8],
    ) -> Selected {
        if memory.len() != self.part.size {
            return Selected::refused(3);
        }
        match (&mut self.power, self.part.wires) {
            (_, Wires::I2c) => Selected::refused(4),
            (Power::Spi(spi), _) if !spi.selected() => {
                if output.len() == input.len() {
                    spi.select(wp, input, output, memory)
                } else {
                    Selected::refused(13)
                }
            }
            _ => Selected::refused(12),
        }
    }

    /// A trace run that appends the answers of the accepted events.
    pub fn run(
        &mut self,
        trace: &[u8],
        quota: u64,
        memory: &mut [u8],
        answers: &mut Vec<u8>,
    ) -> Ran {
        self.run_each(trace, quota, memory, |answer| answers.push(answer))
    }

    /// A trace run that hands each answer on: events up to the quota, up to the end, or up to one
    /// that is refused. The memory is tested first, whatever the trace and the quota.
    pub fn run_each(
        &mut self,
        trace: &[u8],
        quota: u64,
        memory: &mut [u8],
        mut each: impl FnMut(u8),
    ) -> Ran {
        if memory.len() != self.part.size {
            return Ran::none(3, trace);
        }
        let mut ran = Ran::none(0, trace);
        let none = ran.flag;
        let mut rest = trace;
        while ran.count < quota && !rest.is_empty() {
            match self.step(rest, memory) {
                Ok((given, length)) => {
                    each(given.answer);
                    if ran.flag == none && given.flag {
                        ran.flag = (trace.len() - rest.len()) as u64;
                    }
                    ran.count += 1;
                    rest = &rest[length..];
                }
                Err(refused) => {
                    ran.number = refused.number;
                    ran.offset = refused.behind as u64;
                    break;
                }
            }
        }
        ran.offset += (trace.len() - rest.len()) as u64;
        ran
    }

    /// The event in front: what it gives and its length, or why it is refused. What is wrong with
    /// its bytes comes before what the model has against it.
    #[inline]
    fn step(&mut self, bytes: &[u8], memory: &mut [u8]) -> Result<(Given, usize), Refused> {
        let (event, length) = read(self.part, bytes)?;
        match self.act(event, memory) {
            Ok(given) => Ok((given, length)),
            Err(number) => Err(Refused::event(number)),
        }
    }

    /// Numbers 7 to 9, then the event itself.
    #[inline]
    fn act(&mut self, event: Event, memory: &mut [u8]) -> Result<Given, u8> {
        match (event, &mut self.power) {
            (Event::Sample(sample), Power::Spi(spi)) => Ok(spi.sample(sample, memory)),
            (Event::Sample(sample), Power::I2c(i2c)) => Ok(i2c.sample(sample, memory)),
            (Event::Off | Event::Sample(_) | Event::Expect(_), Power::Off) => Err(7),
            (Event::SpiOn(sample), Power::Off) => {
                let bits = std::mem::take(&mut self.saved);
                self.power = Power::Spi(Spi::power_on(self.part, bits, sample));
                Ok(Given::unflagged(NOTHING))
            }
            (Event::I2cOn(sample, start), Power::Off) => {
                self.power = Power::I2c(I2c::power_on(self.part, self.pins, sample, start));
                Ok(Given::unflagged(NOTHING))
            }
            (Event::SpiOn(_) | Event::I2cOn(..), _) => Err(8),
            (Event::Off, _) => {
                self.saved = if self.part.keeps_bits { self.bits() } else { 0 };
                self.power = Power::Off;
                Ok(Given::unflagged(NOTHING))
            }
            (Event::Expect(value), _) => {
                let answer = self.answer();
                if value == answer {
                    Ok(Given::unflagged(answer))
                } else {
                    Err(9)
                }
            }
        }
    }
}
