//! Which field of an event is out of range, told from the event's bytes alone: neither the proved
//! build nor the twin's model is asked, so that this is an opinion of its own.

use twin::part::Wires;
use twin::Part;

/// A field out of range: the number that it gives, and the place of its first byte in its event.
#[derive(Clone, Copy, Debug, PartialEq, Eq)]
pub struct BadField {
    pub number: u8,
    pub place: usize,
}

/// The numbers of bad fields: sample, start address, expected value.
pub const NUMBERS: [u8; 3] = [6, 10, 11];

/// The first field of an event that is out of range, if the event is one of the part's bus and whole.
pub fn bad_field(part: &Part, event: &[u8]) -> Option<BadField> {
    match (event, part.wires) {
        (&[1, sample], Wires::Spi) | (&[4, sample], _) => bad_sample(part, sample),
        (&[2, sample, high, middle, low], Wires::I2c) => {
            let start = u32::from_be_bytes([0, high, middle, low]) as usize;
            bad_sample(part, sample).or(bad(start >= part.size, 10, 2))
        }
        (&[5, value], _) => bad(value > 2, 11, 1),
        _ => None,
    }
}

fn bad_sample(part: &Part, sample: u8) -> Option<BadField> {
    bad(sample > part.max_sample(), 6, 1)
}

fn bad(holds: bool, number: u8, place: usize) -> Option<BadField> {
    holds.then_some(BadField { number, place })
}
