//! The image of a state: 32 bytes, laid out as docs/IMAGE.md has it. Each state has one image, and
//! each buffer that is an image has one state, whether or not a trace leads there.

use crate::i2c::{self, I2c, A16};
use crate::model::{Model, Power};
use crate::part::{Part, Wires, PARTS};
use crate::spi::{self, status_byte, Spi};
use crate::{LOW, NOTHING};

/// How long an image is.
pub const LENGTH: usize = 32;

/// Where each field stands, or its first byte; numbers have the most significant byte first.
mod at {
    pub const PART: usize = 0;
    pub const PINS: usize = 1;
    pub const STATUS: usize = 2;
    pub const POWER: usize = 3;
    pub const LAST: usize = 4;
    pub const DRIVEN: usize = 5;
    pub const ASLEEP: usize = 6;
    pub const PHASE: usize = 7;
    pub const COUNT: usize = 8;
    pub const VALUE: usize = 9;
    pub const ADDRESS: usize = 12;
    pub const DETAIL: usize = 15;
    pub const BUFFER: usize = 16;
    pub const USED: usize = 19;
}

/// The byte of power: without it 0, else the kind of the power on.
const OFF: u8 = 0;
const SPI_ON: u8 = 1;
const I2C_ON: u8 = 2;

const SPI_PHASES: [(u8, spi::Phase); 17] = [
    (0x00, spi::Phase::Rest),
    (0x01, spi::Phase::Deaf),
    (0x10, spi::Phase::Code),
    (0x11, spi::Phase::ReadAddress),
    (0x12, spi::Phase::FstrdAddress),
    (0x13, spi::Phase::WriteAddress),
    (0x14, spi::Phase::Dummy),
    (0x15, spi::Phase::Data),
    (0x16, spi::Phase::StatusData),
    (0x20, spi::Phase::Memory),
    (0x21, spi::Phase::Register),
    (0x22, spi::Phase::Identity),
    (0x30, spi::Phase::Wren),
    (0x31, spi::Phase::Wrdi),
    (0x32, spi::Phase::Sleep),
    (0x33, spi::Phase::Wrsr),
    (0x34, spi::Phase::Waiting),
];

const I2C_PHASES: [(u8, i2c::Phase); 7] = [
    (0x00, i2c::Phase::Rest),
    (0x01, i2c::Phase::Deaf),
    (0x18, i2c::Phase::Word),
    (0x19, i2c::Phase::High),
    (0x1a, i2c::Phase::Low),
    (0x1b, i2c::Phase::Data),
    (0x28, i2c::Phase::Send),
];

/// The number of a phase in its bus's table.
fn number_of<P: Copy + PartialEq>(phases: &[(u8, P)], phase: P) -> u8 {
    let mut numbers = phases.iter().filter(|(_, known)| *known == phase);
    numbers.next().expect("each phase is in its table").0
}

/// The phase of a number, if the bus has it.
fn phase_of<P: Copy>(phases: &[(u8, P)], number: u8) -> Option<P> {
    let mut known = phases.iter().filter(|(known, _)| *known == number);
    known.next().map(|&(_, phase)| phase)
}

/// The image of a model's state.
pub fn encode(model: &Model) -> [u8; LENGTH] {
    let mut image = [0; LENGTH];
    image[at::PART] = model.part.number as u8;
    image[at::PINS] = model.pins;
    match &model.power {
        Power::Off => image[at::STATUS] = status_byte(model.saved, false),
        Power::Spi(spi) => put_spi(&mut image, spi),
        Power::I2c(i2c) => put_i2c(&mut image, i2c),
    }
    image
}

/// Three bytes of a number.
fn put(image: &mut [u8; LENGTH], at: usize, number: u32) {
    image[at..at + 3].copy_from_slice(&number.to_be_bytes()[1..]);
}

fn put_spi(image: &mut [u8; LENGTH], spi: &Spi) {
    let selection = &spi.selection;
    image[at::STATUS] = spi.status();
    image[at::POWER] = SPI_ON;
    image[at::LAST] = spi.old;
    image[at::DRIVEN] = selection.shown;
    image[at::ASLEEP] = u8::from(spi.asleep);
    image[at::PHASE] = number_of(&SPI_PHASES, selection.phase);
    image[at::COUNT] = selection.rises;
    put(image, at::VALUE, selection.field);
    put(image, at::ADDRESS, selection.address);
    image[at::DETAIL] = selection.detail;
}

fn put_i2c(image: &mut [u8; LENGTH], i2c: &I2c) {
    let span = &i2c.span;
    image[at::POWER] = I2C_ON;
    image[at::LAST] = i2c.old;
    image[at::DRIVEN] = i2c.answer();
    image[at::PHASE] = number_of(&I2C_PHASES, span.phase);
    image[at::COUNT] = span.clocks;
    put(image, at::VALUE, u32::from(span.byte));
    put(image, at::ADDRESS, span.address);
    image[at::DETAIL] = span.high;
    put(image, at::BUFFER, i2c.n);
    image[at::USED] = u8::from(i2c.used);
}

/// The model whose state has this image; None if no state has. The fields that a state keeps are
/// looked at one by one. Whatever it does not keep is 0 in the image that it gives back.
pub fn decode(image: &[u8]) -> Option<Model> {
    let image: &[u8; LENGTH] = image.try_into().ok()?;
    let part = PARTS.get(usize::from(image[at::PART]))?;
    let pins = image[at::PINS];
    let mut model = Model::unpowered(part, pins, 0);
    match (image[at::POWER], part.wires) {
        (OFF, _) => model.saved = bits_of(image[at::STATUS]),
        (SPI_ON, Wires::Spi) => model.power = Power::Spi(spi_of(part, image)?),
        (I2C_ON, Wires::I2c) => model.power = Power::I2c(i2c_of(part, image)?),
        _ => return None,
    }
    let table = u32::from(pins) <= part.max_pins && u32::from(model.saved) <= part.max_bits;
    (table && encode(&model) == *image).then_some(model)
}

/// SRWD BP1 BP0 of a status byte.
fn bits_of(status: u8) -> u8 {
    status >> 5 & 4 | status >> 2 & 3
}

fn number(image: &[u8; LENGTH], at: usize) -> u32 {
    u32::from_be_bytes([0, image[at], image[at + 1], image[at + 2]])
}

fn flag(byte: u8) -> Option<bool> {
    (byte < 2).then_some(byte == 1)
}

/// The sample before, which is as an event has it.
fn last(part: &Part, image: &[u8; LENGTH]) -> Option<u8> {
    Some(image[at::LAST]).filter(|&sample| sample <= part.max_sample())
}

/// What the numbers of a phase are below. A limit of 1 is for a number that the phase lacks.
struct Limits {
    count: u64,
    /// The bits that are in make a value below 2 to the count.
    value: bool,
    address: usize,
    detail: u32,
}

impl Limits {
    /// A phase without numbers.
    const NONE: Limits = Limits {
        count: 1,
        value: false,
        address: 1,
        detail: 1,
    };

    /// A phase that takes bits, fewer than so many while it lasts.
    fn takes(count: u64) -> Limits {
        Limits {
            count,
            value: true,
            ..Limits::NONE
        }
    }

    /// A phase that shows bits.
    fn shows(count: u64) -> Limits {
        Limits {
            count,
            ..Limits::NONE
        }
    }

    fn at(self, address: usize) -> Limits {
        Limits { address, ..self }
    }

    fn detail(self, detail: u32) -> Limits {
        Limits { detail, ..self }
    }

    fn hold(&self, image: &[u8; LENGTH]) -> bool {
        let count = image[at::COUNT];
        u64::from(count) < self.count
            && number(image, at::VALUE) < if self.value { 1 << count } else { 1 }
            && (number(image, at::ADDRESS) as usize) < self.address
            && u32::from(image[at::DETAIL]) < self.detail
    }
}

fn spi_limits(part: &Part, phase: spi::Phase) -> Limits {
    use spi::Phase::*;
    match phase {
        Rest | Deaf | Wren | Wrdi | Sleep => Limits::NONE,
        Code | StatusData => Limits::takes(8),
        ReadAddress | FstrdAddress | WriteAddress => Limits::takes(part.address_bits),
        Dummy => Limits::takes(8).at(part.size),
        Data => Limits::takes(8).at(part.size).detail(2),
        Memory => Limits::shows(8).at(part.size),
        Register => Limits::shows(8),
        Identity => Limits::shows(8).detail(4),
        Wrsr => Limits::NONE.detail(256),
        Waiting => Limits::NONE.at(part.size).detail(256),
    }
}

fn spi_of(part: &'static Part, image: &[u8; LENGTH]) -> Option<Spi> {
    let phase = phase_of(&SPI_PHASES, image[at::PHASE])?;
    let shown = image[at::DRIVEN];
    let waits_in_vain = phase == spi::Phase::Waiting && !part.stores_late;
    if shown > NOTHING || waits_in_vain || !spi_limits(part, phase).hold(image) {
        return None;
    }
    Some(Spi {
        part,
        bits: bits_of(image[at::STATUS]),
        wel: image[at::STATUS] & 2 != 0,
        asleep: flag(image[at::ASLEEP])?,
        old: last(part, image)?,
        selection: spi::Selection {
            phase,
            rises: image[at::COUNT],
            detail: image[at::DETAIL],
            shown,
            field: number(image, at::VALUE),
            address: number(image, at::ADDRESS),
        },
    })
}

/// Of the address bytes the address is A16 alone, whose other bits `i2c_of` looks at.
fn i2c_limits(part: &Part, phase: i2c::Phase) -> Limits {
    use i2c::Phase::*;
    let a16 = A16 as usize + 1;
    match phase {
        Rest | Deaf => Limits::NONE,
        Word => Limits::takes(9),
        High => Limits::takes(9).at(a16),
        Low => Limits::takes(9).at(a16).detail(256),
        Data => Limits::takes(9).at(part.size),
        Send => Limits::shows(9).at(part.size),
    }
}

fn i2c_of(part: &'static Part, image: &[u8; LENGTH]) -> Option<I2c> {
    let phase = phase_of(&I2C_PHASES, image[at::PHASE])?;
    let (address, n) = (number(image, at::ADDRESS), number(image, at::BUFFER));
    let a16_alone = matches!(phase, i2c::Phase::High | i2c::Phase::Low);
    if !i2c_limits(part, phase).hold(image)
        || a16_alone && address & !A16 != 0
        || n as usize >= part.size
    {
        return None;
    }
    Some(I2c {
        part,
        pins: image[at::PINS],
        old: last(part, image)?,
        pull: image[at::DRIVEN] == LOW,
        n,
        used: flag(image[at::USED])?,
        span: i2c::Span {
            phase,
            clocks: image[at::COUNT],
            // Below 2 to the count, which is 8 at most.
            byte: number(image, at::VALUE) as u8,
            high: image[at::DETAIL],
            address,
        },
    })
}
