//! Images made up field by field (docs/IMAGE.md), each field mostly 0, in its range or just past it: some
//! are those of states that no call reaches, and many are none.

use crate::phases::of_bus;
use twin::gen::Rng;
use twin::part::Wires;
use twin::Part;

/// Numbers near the phases that are none.
const NONE: [u8; 6] = [0x02, 0x17, 0x1c, 0x23, 0x29, 0x35];

/// A buffer of 32 bytes that is an image, or nearly one.
pub fn image(rng: &mut Rng, part: &Part) -> Vec<u8> {
    let count = one(rng, &[1, 7, 8, 9, 15, 16, 23, 24]);
    let mut image = vec![part.number as u8, one(rng, &[1, part.max_pins as u8])];
    image.push(one(rng, &[0x02, 0x04, 0x08, 0x80, 0x8e, 0x01]));
    image.push(power(rng, part));
    let sample = rng.byte() & part.max_sample();
    image.push(one(rng, &[sample, sample, sample, 32]));
    image.push(rng.pick(&[0, 1, 2, 2, 2, 2, 3]));
    image.push(one(rng, &[0, 0, 1, 2]));
    image.push(phase(rng, part));
    image.push(count);
    let past = 1_u32 << count.min(23);
    let below = rng.draw() as u32 % past;
    image.extend(three(rng, &[below, below, past - 1, past]));
    image.extend(address(rng, part));
    image.push(one(rng, &[1, 2, 3, 4, 0x80, 0xff]));
    let buffer = address(rng, part);
    image.extend(if part.wires == Wires::Spi && rng.chance(950) {
        [0; 3]
    } else {
        buffer
    });
    image.push(one(rng, &[0, 0, 1, 2]));
    image.resize(32, 0);
    image
}

/// Mostly 0, else one of these.
fn one(rng: &mut Rng, of: &[u8]) -> u8 {
    let drawn = rng.pick(of);
    rng.pick(&[0, 0, drawn])
}

/// The same as a number of three bytes.
fn three(rng: &mut Rng, of: &[u32]) -> [u8; 3] {
    let drawn = rng.pick(of);
    let [_, high, middle, low] = rng.pick(&[0, 0, drawn]).to_be_bytes();
    [high, middle, low]
}

/// Mostly that of the part's bus.
fn power(rng: &mut Rng, part: &Part) -> u8 {
    let (own, _) = of_bus(part.wires);
    rng.pick(&[own, own, own, own, own, own, own, 0, 1, 2, 3])
}

/// Mostly one of the part's bus.
fn phase(rng: &mut Rng, part: &Part) -> u8 {
    let other = match part.wires {
        Wires::Spi => Wires::I2c,
        Wires::I2c => Wires::Spi,
    };
    let ((_, own), (_, other)) = (of_bus(part.wires), of_bus(other));
    let from = rng.pick(&[own, own, own, own, own, own, other, &NONE]);
    rng.pick(from)
}

/// Any of the part's addresses, its last, the first past it, or A16.
fn address(rng: &mut Rng, part: &Part) -> [u8; 3] {
    let size = part.size as u32;
    let any = rng.draw() as u32 % size;
    three(rng, &[any, any, size - 1, size, 0x01_0000])
}
