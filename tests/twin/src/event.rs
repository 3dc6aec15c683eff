//! The bytes of one event: its kind, its length and its fields. Numbers 4, 5, 6, 10 and 11 are told
//! here, without the model. And what an event gives back that is accepted.

use crate::part::{Part, Wires};

/// An event whose bytes are in order (numbers 4, 5, 6, 10 and 11 do not hold).
#[derive(Clone, Copy)]
pub(crate) enum Event {
    SpiOn(u8),
    I2cOn(u8, u32),
    Off,
    Sample(u8),
    Expect(u8),
}

/// What an accepted event gives back.
#[derive(Clone, Copy)]
pub(crate) struct Given {
    pub answer: u8,
    /// The warning: write protect moved within a selection, or between START and STOP.
    pub flag: bool,
}

impl Given {
    /// Only samples are warned of.
    pub fn unflagged(answer: u8) -> Given {
        Given {
            answer,
            flag: false,
        }
    }
}

/// Why an event is refused, and where a run says so.
#[derive(Clone, Copy)]
pub(crate) struct Refused {
    pub number: u8,
    /// How far behind the kind byte a run's offset shows.
    pub behind: usize,
}

impl Refused {
    /// The offset stays at the kind byte.
    pub fn event(number: u8) -> Refused {
        Refused { number, behind: 0 }
    }
}

/// The highest answer there is to expect.
const MAX_EXPECTED: u8 = 2;

/// Numbers 4, 5, 6, 10 and 11, in this order; else the event and its length.
#[inline]
pub(crate) fn read(part: &Part, bytes: &[u8]) -> Result<(Event, usize), Refused> {
    match (bytes, part.wires) {
        (&[], _) => Err(Refused::event(5)),
        (&[4, sample, ..], _) => {
            sample_in_range(part, sample)?;
            Ok((Event::Sample(sample), 2))
        }
        (&[5, value, ..], _) => {
            in_range(value <= MAX_EXPECTED, 11, 1)?;
            Ok((Event::Expect(value), 2))
        }
        (&[3, ..], _) => Ok((Event::Off, 1)),
        (&[1, sample, ..], Wires::Spi) => {
            sample_in_range(part, sample)?;
            Ok((Event::SpiOn(sample), 2))
        }
        (&[2, sample, high, middle, low, ..], Wires::I2c) => {
            let start = u32::from_be_bytes([0, high, middle, low]);
            sample_in_range(part, sample)?;
            in_range((start as usize) < part.size, 10, 2)?;
            Ok((Event::I2cOn(sample, start), 5))
        }
        // A kind that the bus has, without all of its bytes.
        (&[4 | 5, ..], _) | (&[1, ..], Wires::Spi) | (&[2, ..], Wires::I2c) => {
            Err(Refused::event(5))
        }
        _ => Err(Refused::event(4)),
    }
}

/// Each sample is the first byte behind its kind.
#[inline]
fn sample_in_range(part: &Part, sample: u8) -> Result<(), Refused> {
    in_range(sample <= part.max_sample(), 6, 1)
}

/// A field that is out of range refuses its event; the offset is that of its first byte.
#[inline]
fn in_range(holds: bool, number: u8, behind: usize) -> Result<(), Refused> {
    if holds {
        Ok(())
    } else {
        Err(Refused { number, behind })
    }
}
