//! A chip on the bench: a model, and the memory that is lent to it.

use sildrokk::trace::{i2c, spi, Event};
use sildrokk::{Bus, Model, Part};

/// All that there is of a chip, so that two which are equal go on alike.
#[derive(Clone, PartialEq, Eq)]
pub struct Chip {
    pub model: Model,
    pub memory: Vec<u8>,
}

impl Chip {
    /// A part just made. Bytes of its memory whose addresses differ in one bit are not the same, so that
    /// a wrong address shows.
    pub fn new(part: Part) -> Chip {
        Chip {
            model: Model::new(part, 0, 0).expect("no pins and no bits"),
            memory: (0..part.size()).map(|at| (at % 251) as u8).collect(),
        }
    }
}

/// The power on of a bus, with its wires at rest.
pub fn power_on(bus: Bus) -> Vec<u8> {
    let mut trace = Vec::new();
    let event = match bus {
        Bus::Spi => Event::SpiPowerOn {
            sample: spi::CS | spi::WP | spi::HOLD,
        },
        Bus::I2c => Event::I2cPowerOn {
            sample: i2c::SCL | i2c::SDA,
            start: 0,
        },
    };
    event.write(&mut trace);
    trace
}
