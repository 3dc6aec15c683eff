//! Traces drawn at random: the wires move now and then, whatever that means on the bus.

use super::played::{played, Made};
use super::random::Random;
use sildrokk::trace::{i2c, spi};
use sildrokk::{Bus, Part};

/// Samples in which one wire moves at a time, the clock the most; now and then power is cut, or it is
/// expected that nothing is driven, which may be wrong and end the run.
pub fn walk(part: Part, events: usize, random: &mut Random) -> Vec<u8> {
    let (on, clock, wires): (&[u8], u8, &[u8]) = match part.bus() {
        Bus::Spi => (
            &[0x01, 0x19],
            spi::SCK,
            &[spi::CS, spi::SI, spi::WP, spi::HOLD],
        ),
        Bus::I2c => (
            &[0x02, 0x03, 0, 0, 0],
            i2c::SCL,
            &[i2c::SDA, i2c::SDA, i2c::WP],
        ),
    };
    let (mut trace, mut levels) = (on.to_vec(), on[1]);
    for _ in 0..events {
        match random.within(0..400) {
            0 => trace.extend([&[0x03][..], on].concat()),
            1..9 => {
                trace.extend([0x05, 2]);
                levels ^= random.one_of(wires);
            }
            9..200 => levels ^= clock,
            _ => levels ^= random.one_of(wires),
        }
        trace.extend([0x04, levels]);
    }
    trace
}

/// Walks one after the other, each from power on to power off, and none of which is refused.
pub fn long_walk(part: Part, events: usize, random: &mut Random) -> Vec<u8> {
    let (made, mut trace) = (Made::of(part), Vec::new());
    while trace.len() < 2 * events {
        let piece = walk(part, 50, random);
        let accepted = played(&made, &piece, u64::MAX).refusal.is_none();
        if accepted {
            trace.extend(piece);
            trace.push(0x03);
        }
    }
    trace
}
