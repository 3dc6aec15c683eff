//! Images as dumps, and the tables of docs/IMAGE.md a second time: what is an image by its numbers
//! alone, and images drawn from all of these, reached by a trace or not.

use twin::gen::Rng;
use twin::image::{decode, encode, LENGTH};
use twin::Model;

pub type Image = [u8; LENGTH];

/// The bytes of a dump; those that it leaves out at the end are 0.
pub fn dump(text: &str) -> Image {
    let mut image = [0; LENGTH];
    for (at, byte) in text.split_whitespace().enumerate() {
        image[at] = u8::from_str_radix(byte, 16).expect(text);
    }
    image
}

/// The model of an image, which must be taken and given back.
pub fn taken(image: &Image) -> Model {
    let model = decode(image).unwrap_or_else(|| panic!("refused: {image:02x?}"));
    assert_eq!(encode(&model), *image);
    model
}

/// By part: the size, the bits of an SPI address, the highest pins.
const PARTS: [(u32, u32, u8); 5] = [
    (0x1000, 16, 0),
    (0x20000, 24, 0),
    (0x40000, 24, 0),
    (0x2000, 0, 7),
    (0x20000, 0, 3),
];

/// The address of a phase.
#[derive(Clone, Copy, PartialEq)]
enum At {
    No,
    Size,
    A16,
}

/// A phase: its number, how many counts it has, whether it has a value, its address, and how many
/// details.
type Row = (u8, u32, bool, At, u32);

/// The counts of an address: as many as it has bits.
const WIDTH: u32 = 0;

const SPI: [Row; 17] = [
    (0x00, 1, false, At::No, 1),
    (0x01, 1, false, At::No, 1),
    (0x10, 8, true, At::No, 1),
    (0x11, WIDTH, true, At::No, 1),
    (0x12, WIDTH, true, At::No, 1),
    (0x13, WIDTH, true, At::No, 1),
    (0x14, 8, true, At::Size, 1),
    (0x15, 8, true, At::Size, 2),
    (0x16, 8, true, At::No, 1),
    (0x20, 8, false, At::Size, 1),
    (0x21, 8, false, At::No, 1),
    (0x22, 8, false, At::No, 4),
    (0x30, 1, false, At::No, 1),
    (0x31, 1, false, At::No, 1),
    (0x32, 1, false, At::No, 1),
    (0x33, 1, false, At::No, 256),
    (0x34, 1, false, At::Size, 256),
];

/// The last is that of a byte that waits, which part 1 alone has.
const OTHER_SPI: usize = SPI.len() - 1;

const I2C: [Row; 7] = [
    (0x00, 1, false, At::No, 1),
    (0x01, 1, false, At::No, 1),
    (0x18, 9, true, At::No, 1),
    (0x19, 9, true, At::A16, 1),
    (0x1a, 9, true, At::A16, 256),
    (0x1b, 9, true, At::Size, 1),
    (0x28, 9, false, At::Size, 1),
];

fn rows(part: u8) -> &'static [Row] {
    match part {
        1 => &SPI,
        0 | 2 => &SPI[..OTHER_SPI],
        _ => &I2C,
    }
}

fn number(image: &Image, at: usize) -> u32 {
    image[at..at + 3]
        .iter()
        .fold(0, |sum, &byte| 256 * sum + u32::from(byte))
}

/// Whether these bytes are an image.
pub fn is_image(image: &Image) -> bool {
    let [part, pins, status, power, ..] = *image;
    let Some(&(.., highest)) = PARTS.get(usize::from(part)) else {
        return false;
    };
    let zero = |bytes: &[u8]| bytes.iter().all(|&byte| byte == 0);
    pins <= highest
        && match (part, power) {
            (0, 0) => zero(&image[2..]),
            (1 | 2, 0) => status & !0x8c == 0 && zero(&image[3..]),
            (0..=2, 1) => spi_in(image) && phase_in(image) && zero(&image[16..]),
            (3 | 4, 0) => zero(&image[2..]),
            (3 | 4, 2) => i2c_in(image) && phase_in(image) && zero(&image[20..]),
            _ => false,
        }
}

/// Status, last, driven and asleep of an SPI part under power.
fn spi_in(image: &Image) -> bool {
    image[2] & !0x8e == 0 && image[4] < 32 && image[5] < 3 && image[6] < 2
}

/// The same of an I2C part, and its buffer.
fn i2c_in(image: &Image) -> bool {
    let (size, ..) = PARTS[usize::from(image[0])];
    let levels = image[4] < 8 && (image[5] == 0 || image[5] == 2);
    levels && (image[2], image[6]) == (0, 0) && number(image, 16) < size && image[19] < 2
}

/// Count, value, address and detail of a phase that the bus has.
fn phase_in(image: &Image) -> bool {
    let (size, width, _) = PARTS[usize::from(image[0])];
    let count = u32::from(image[8]);
    let row = rows(image[0]).iter().find(|row| row.0 == image[7]);
    row.is_some_and(|&(_, counts, value, at, details)| {
        let counts = if counts == WIDTH { width } else { counts };
        let address = number(image, 12);
        count < counts
            && number(image, 9) < if value { 1 << count } else { 1 }
            && match at {
                At::No => address == 0,
                At::Size => address < size,
                At::A16 => address == 0 || address == 0x10000,
            }
            && u32::from(image[15]) < details
    })
}

/// Any image of a part under power, its fields drawn one by one.
pub fn draw(rng: &mut Rng, part: u8) -> Image {
    let (size, width, highest) = PARTS[usize::from(part)];
    let (phase, counts, value, at, details) = rng.pick(rows(part));
    let counts = if counts == WIDTH { width } else { counts };
    let mut below = |bound: u32| rng.below(u64::from(bound)) as u32;
    let count = below(counts);
    let mut image = [0; LENGTH];
    let mut put = |at: usize, number: u32| {
        image[at..at + 3].copy_from_slice(&number.to_be_bytes()[1..]);
    };
    put(9, if value { below(1 << count) } else { 0 });
    put(
        12,
        match at {
            At::No => 0,
            At::Size => near_end(&mut below, size),
            At::A16 => 0x10000 * below(2),
        },
    );
    if part >= 3 {
        put(16, near_end(&mut below, size));
        image[19] = below(2) as u8;
    }
    let head = if part < 3 {
        [below(256) & 0x8e, 1, below(32), below(3), below(2)]
    } else {
        [0, 2, below(8), 2 * below(2), 0]
    };
    image[2..7].copy_from_slice(&head.map(|number| number as u8));
    image[1] = below(u32::from(highest) + 1) as u8;
    (image[0], image[7]) = (part, phase);
    (image[8], image[15]) = (count as u8, below(details) as u8);
    image
}

/// An address, one of the last or the first as often as any other.
fn near_end(below: &mut impl FnMut(u32) -> u32, size: u32) -> u32 {
    match below(4) {
        0 => below(4),
        1 => size - 1 - below(4),
        _ => below(size),
    }
}
