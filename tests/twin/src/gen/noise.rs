//! Traces without structure.

use super::{known, Rng};
use crate::part::{spi_pin, Wires};

/// Wholly random bytes, or random events of the right form, half of them with write protect high up
/// to some event.
pub(super) fn noise(rng: &mut Rng, part: u32) -> Vec<u8> {
    let length = rng.below(600);
    if rng.chance(300) {
        return (0..length).map(|_| rng.byte()).collect();
    }
    let moves_from = match rng.below(2) {
        0 => 0,
        _ => rng.below(length + 1),
    };
    noisy_events(rng, part, length, moves_from)
}

/// A power on and so many events, mostly samples.
fn noisy_events(rng: &mut Rng, part: u32, length: u64, moves_from: u64) -> Vec<u8> {
    let known = known(part);
    let protect = |at: u64| {
        if at < moves_from {
            known.protect_pin()
        } else {
            0
        }
    };
    let on = rng.byte() & known.max_sample() | protect(0);
    let mut out = match known.wires {
        Wires::Spi => vec![1, on],
        Wires::I2c => vec![2, on, 0, rng.byte() & 31, rng.byte()],
    };
    for at in 0..length {
        let sample = match known.wires {
            // Mostly selected and not held.
            Wires::Spi if rng.chance(950) => rng.byte() & 14 | spi_pin::HOLD,
            _ => rng.byte() & known.max_sample(),
        };
        match rng.below(600) {
            0 => out.push(rng.byte()),
            1 => out.extend([rng.byte() % 7, rng.byte()]),
            2 => out.extend([5, 2]),
            _ => out.extend([4, sample | protect(at)]),
        }
    }
    out
}
