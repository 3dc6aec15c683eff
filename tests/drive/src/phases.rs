//! The phases of an image (docs/IMAGE.md): those of each bus, and those that events lead a part to.

use std::collections::BTreeSet;
use twin::part::Wires;
use twin::Part;

/// Where an image has the kind of power and the phase.
pub const POWER: usize = 3;
pub const PHASE: usize = 7;

/// The phase in which a finished data byte of WRITE waits to be stored.
pub const WAITING: u8 = 0x34;

const SPI: [u8; 17] = [
    0x00, 0x01, 0x10, 0x11, 0x12, 0x13, 0x14, 0x15, 0x16, 0x20, 0x21, 0x22, 0x30, 0x31, 0x32, 0x33,
    WAITING,
];
const I2C: [u8; 7] = [0x00, 0x01, 0x18, 0x19, 0x1a, 0x1b, 0x28];

/// Of each part those of the commands that it lacks: FSTRD (12h, 14h), RDID (22h) and SLEEP (32h); and
/// that of a byte that waits.
const LACKED: [&[u8]; 5] = [
    &[0x12, 0x14, 0x22, 0x32, WAITING],
    &[],
    &[0x12, 0x14, 0x32, WAITING],
    &[],
    &[],
];

/// The kind of power that a bus has, and its phases.
pub fn of_bus(wires: Wires) -> (u8, &'static [u8]) {
    match wires {
        Wires::Spi => (1, &SPI),
        Wires::I2c => (2, &I2C),
    }
}

/// Without power, and each phase that a part can come to under power; with the kind of power.
pub fn of_part(part: &Part) -> BTreeSet<(u8, u8)> {
    let (power, phases) = of_bus(part.wires);
    let lacked = LACKED[part.number as usize];
    let own = phases.iter().filter(|phase| !lacked.contains(phase));
    let powered = own.map(|&phase| (power, phase));
    powered.chain([(0, 0)]).collect()
}
