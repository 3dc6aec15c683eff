//! The samples that moved WP# or WP where it is to be held still, and where a trace may have one.

use sildrokk::trace::{i2c, spi, Event};
use sildrokk::Bus;

/// How many are listed.
pub const LISTED: usize = 16;

/// One of them.
#[derive(Clone, Copy)]
pub struct Warning {
    /// Where its kind byte stands in the trace.
    pub offset: u64,
    /// Its number among the events, counted from 0.
    pub event: u64,
}

/// All of them that there were: the first few, and how many.
#[derive(Default)]
pub struct Warnings {
    pub first: Vec<Warning>,
    pub count: u64,
}

impl Warnings {
    pub fn add(&mut self, warning: Warning) {
        self.count += 1;
        if self.first.len() < LISTED {
            self.first.push(warning);
        }
    }
}

/// Follows the level of the write protect pin through a trace. A run tells its first warning alone, and
/// only a sample that moves the pin can have one; so a trace is played in stretches with at most one
/// such sample, at their front.
pub struct Moves {
    pin: u8,
    level: Option<u8>,
}

impl Moves {
    pub fn new(bus: Bus) -> Moves {
        let pin = match bus {
            Bus::Spi => spi::WP,
            Bus::I2c => i2c::WP,
        };
        Moves { pin, level: None }
    }

    /// How many bytes from the front make the next stretch: up to an event behind the first that moves
    /// the pin, or all. What is no whole event is left to the run.
    pub fn stretch(&mut self, bytes: &[u8]) -> usize {
        let mut at = 0;
        loop {
            at += self.still(&bytes[at..]);
            let Some((event, length)) = Event::read(&bytes[at..]) else {
                return bytes.len();
            };
            let level = match event {
                Event::Sample(sample)
                | Event::SpiPowerOn { sample }
                | Event::I2cPowerOn { sample, .. } => Some(sample & self.pin),
                Event::PowerOff | Event::Expected(_) => self.level,
            };
            let moves = matches!(event, Event::Sample(_)) && level != self.level;
            if moves && self.level.is_some() && at > 0 {
                return at;
            }
            self.level = level;
            at += length;
        }
    }

    /// How many bytes from the front are samples that leave the pin, four samples at a time: of most
    /// traces nearly all are.
    fn still(&self, bytes: &[u8]) -> usize {
        let Some(level) = self.level else {
            return 0;
        };
        let four = |kind, sample| {
            u64::from_ne_bytes([kind, sample, kind, sample, kind, sample, kind, sample])
        };
        let (mask, still) = (four(0xff, self.pin), four(0x04, level));
        let (blocks, _) = bytes.as_chunks::<8>();
        let still = blocks
            .iter()
            .take_while(|it| u64::from_ne_bytes(**it) & mask == still);
        8 * still.count()
    }
}
