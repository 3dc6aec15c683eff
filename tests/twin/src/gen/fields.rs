//! Events with a field out of range, and events with each field at the end of its range.

use super::Rng;
use crate::part::{Part, Wires};
use crate::trace::{after, events, i2c_on};

/// Puts an event with a bad field before a trace, among its events or behind it, now and then with
/// a second one that no run comes to; or one at the limits behind it, where it disturbs no other.
pub(super) fn put_fields(rng: &mut Rng, part: &Part, out: &mut Vec<u8>) {
    if rng.chance(250) {
        out.extend(at_the_limits(rng, part));
        return;
    }
    let mut event = out_of_range(rng, part);
    if rng.chance(200) {
        event.extend(out_of_range(rng, part));
    }
    let at = match rng.below(10) {
        0 => 0,
        1..=3 => any_beginning(rng, out),
        _ => out.len(),
    };
    // A trace that ends inside the event, with the bad field in it or without.
    if at == out.len() && rng.chance(80) {
        event.pop();
    }
    out.splice(at..at, event);
}

/// Where an event begins, or where the trace ends.
fn any_beginning(rng: &mut Rng, trace: &[u8]) -> usize {
    let events = events(trace).count() as u64;
    after(trace, rng.below(events + 1)).0 as usize
}

/// A kind that has fields; rarely the power on of the other bus, which is 4 whatever its fields.
fn kind(rng: &mut Rng, wires: Wires) -> u8 {
    match wires {
        Wires::Spi => rng.pick(&[1, 1, 1, 1, 4, 4, 4, 5, 5, 5, 2]),
        Wires::I2c => rng.pick(&[2, 2, 2, 2, 2, 2, 4, 4, 4, 5, 5, 1]),
    }
}

/// An event with a field out of range, or on kind 02 with both.
fn out_of_range(rng: &mut Rng, part: &Part) -> Vec<u8> {
    match kind(rng, part.wires) {
        2 => {
            let (sample, start) = match rng.below(3) {
                0 => (bad_sample(rng, part), good_start(rng, part)),
                1 => (good_sample(rng, part), bad_start(rng, part)),
                _ => (bad_sample(rng, part), bad_start(rng, part)),
            };
            i2c_on(sample, start).into()
        }
        5 => vec![5, above(rng, 2)],
        kind => vec![kind, bad_sample(rng, part)],
    }
}

/// An event whose fields are the last in range.
fn at_the_limits(rng: &mut Rng, part: &Part) -> Vec<u8> {
    match kind(rng, part.wires) {
        2 => i2c_on(part.max_sample(), part.size as u32 - 1).into(),
        5 => vec![5, 2],
        kind => vec![kind, part.max_sample()],
    }
}

/// The last in range, or any.
fn good_sample(rng: &mut Rng, part: &Part) -> u8 {
    let any = rng.byte() & part.max_sample();
    rng.pick(&[part.max_sample(), any])
}

/// The last in range, or any.
fn good_start(rng: &mut Rng, part: &Part) -> u32 {
    let any = rng.below(part.size as u64) as u32;
    rng.pick(&[part.size as u32 - 1, any])
}

fn bad_sample(rng: &mut Rng, part: &Part) -> u8 {
    above(rng, part.max_sample())
}

/// The first value above this one, the second, the highest of a byte, or any.
fn above(rng: &mut Rng, most: u8) -> u8 {
    match rng.below(4) {
        0 => most + 1,
        1 => most + 2,
        2 => 255,
        _ => 255 - rng.below(u64::from(255 - most)) as u8,
    }
}

/// The size, the next value, the highest of three bytes, or any, with each bit above the address
/// equally often the highest.
fn bad_start(rng: &mut Rng, part: &Part) -> u32 {
    let size = part.size as u32;
    match rng.below(4) {
        0 => size,
        1 => size + 1,
        2 => 0xff_ffff,
        _ => {
            let highest = size << rng.below(u64::from(24 - size.trailing_zeros()));
            highest + rng.below(u64::from(highest)) as u32
        }
    }
}
