//! A seeded generator of structured traces for all five parts. It drives a model while it writes,
//! so that its expected answers (05) can be right.

mod bytes;
mod fields;
mod i2c;
mod noise;
mod spi;

pub use bytes::{byte_case, selection_bytes, ByteCase};

use crate::model::Model;
use crate::part::{i2c_pin, spi_pin, Part, Wires, PARTS};
use crate::text::first_memory;
use crate::trace::i2c_on;

/// Splitmix64.
#[derive(Clone, Debug)]
pub struct Rng(u64);

impl Rng {
    pub fn new(seed: u64) -> Rng {
        Rng(seed)
    }

    pub fn draw(&mut self) -> u64 {
        self.0 = self.0.wrapping_add(0x9e37_79b9_7f4a_7c15);
        let mut z = self.0;
        z = (z ^ z >> 30).wrapping_mul(0xbf58_476d_1ce4_e5b9);
        z = (z ^ z >> 27).wrapping_mul(0x94d0_49bb_1331_11eb);
        z ^ z >> 31
    }

    /// A number below `bound`, which isn't 0.
    pub fn below(&mut self, bound: u64) -> u64 {
        self.draw() % bound
    }

    /// True in so many of a thousand cases.
    pub fn chance(&mut self, per_mille: u32) -> bool {
        self.below(1000) < u64::from(per_mille)
    }

    pub fn byte(&mut self) -> u8 {
        self.draw() as u8
    }

    pub fn pick<T: Copy>(&mut self, from: &[T]) -> T {
        from[self.below(from.len() as u64) as usize]
    }
}

/// What a trace is like. The chances are in thousandths.
#[derive(Clone, Debug)]
pub struct Knobs {
    pub pins: u32,
    pub bits: u32,
    /// Blocks at most: a transfer, or a command with its WREN and a look after it.
    pub blocks: u64,
    /// That a sample is followed by a right 05.
    pub expect: u32,
    /// That such a 05 is wrong instead.
    pub wrong: u32,
    /// That a clock comes with a glitch.
    pub glitch: u32,
    /// That write protect moves with a sample, whatever else that changes. It is so from some block
    /// on, so that the first warning may come late.
    pub moved: u32,
    /// That it moves with a fall or rise of CS#, or with a START or STOP, from that block on.
    pub border: u32,
    /// That the last rise of a data byte of WRITE is followed by a hold, a power cut or CS# rising.
    pub byte_end: u32,
    /// That a sample is followed by a power cut, with power on after it.
    pub cut: u32,
    /// That a power on comes with a refused event before it or after it.
    pub stray: u32,
    /// That an event with a field out of range, or at the end of its range, is put into the trace.
    pub fields: u32,
    /// That the finished trace is damaged.
    pub damage: u32,
    /// That the trace is noise throughout.
    pub noise: u32,
}

impl Default for Knobs {
    fn default() -> Knobs {
        Knobs {
            pins: 0,
            bits: 0,
            blocks: 12,
            expect: 40,
            wrong: 0,
            glitch: 8,
            moved: 0,
            border: 0,
            byte_end: 0,
            cut: 1,
            stray: 0,
            fields: 0,
            damage: 0,
            noise: 0,
        }
    }
}

impl Knobs {
    /// Knobs for a part with its pins, bits and chances drawn.
    pub fn draw(rng: &mut Rng, part: u32) -> Knobs {
        let (pins, bits) = PARTS.get(part as usize).map_or((0, 0), |part| {
            let pins = rng.below(u64::from(part.max_pins) + 1);
            (pins as u32, rng.below(u64::from(part.max_bits) + 1) as u32)
        });
        Knobs {
            pins,
            bits,
            blocks: rng.pick(&[2, 6, 12, 20]),
            expect: rng.pick(&[0, 20, 100]),
            wrong: rng.pick(&[0, 0, 0, 50]),
            glitch: rng.pick(&[0, 0, 3, 10, 60]),
            moved: rng.pick(&[0, 0, 0, 2, 6, 30]),
            border: rng.pick(&[0, 0, 0, 80, 400]),
            byte_end: match known(part).wires {
                Wires::Spi => rng.pick(&[0, 60, 250]),
                Wires::I2c => 0,
            },
            cut: rng.pick(&[0, 0, 1, 3]),
            stray: rng.pick(&[0, 10]),
            fields: rng.pick(&[0, 0, 200]),
            damage: rng.pick(&[0, 0, 300]),
            noise: 60,
        }
    }
}

/// A making and a trace for it.
#[derive(Clone, Debug)]
pub struct Case {
    pub part: u32,
    pub pins: u32,
    pub bits: u32,
    pub trace: Vec<u8>,
}

/// A case of any part, its knobs drawn.
pub fn case(rng: &mut Rng) -> Case {
    let part = rng.below(PARTS.len() as u64) as u32;
    case_of(rng, part)
}

/// A case of one part, its knobs drawn.
pub fn case_of(rng: &mut Rng, part: u32) -> Case {
    let knobs = Knobs::draw(rng, part);
    let trace = trace_with(rng, part, &knobs);
    Case {
        part,
        pins: knobs.pins,
        bits: knobs.bits,
        trace,
    }
}

/// A trace for a part made with pins 0 and bits 0, the other knobs drawn.
pub fn trace(rng: &mut Rng, part: u32) -> Vec<u8> {
    let mut knobs = Knobs::draw(rng, part);
    knobs.pins = 0;
    knobs.bits = 0;
    trace_with(rng, part, &knobs)
}

/// A trace for a part made as the knobs say, over the first memory of the vectors.
pub fn trace_with(rng: &mut Rng, part: u32, knobs: &Knobs) -> Vec<u8> {
    let mut out = if rng.chance(knobs.noise) {
        noise::noise(rng, part)
    } else {
        let mut bench = Bench::new(rng, part, knobs);
        bench.fill();
        bench.out
    };
    if rng.chance(knobs.fields) {
        fields::put_fields(rng, known(part), &mut out);
    }
    if rng.chance(knobs.damage) {
        damage(rng, &mut out);
    }
    out
}

/// The part of a number; that of a refused making is part 0.
fn known(part: u32) -> &'static Part {
    PARTS.get(part as usize).unwrap_or(&PARTS[0])
}

/// Truncation, a changed byte, a byte more or a byte less.
fn damage(rng: &mut Rng, out: &mut Vec<u8>) {
    if out.is_empty() {
        return;
    }
    let at = rng.below(out.len() as u64) as usize;
    match rng.below(5) {
        0 => out.truncate(at),
        1 => out[at] = rng.byte(),
        2 => out[at] ^= 1 << rng.below(8),
        3 => out.insert(at, rng.byte() & 7),
        _ => {
            out.remove(at);
        }
    }
}

/// A trace under way, with the model that it is run on.
struct Bench<'a> {
    rng: &'a mut Rng,
    knobs: &'a Knobs,
    part: &'static Part,
    model: Model,
    memory: Vec<u8>,
    out: Vec<u8>,
    /// The sample last sent.
    wires: u8,
    /// Whether write protect moves as the knobs say.
    moving: bool,
}

impl<'a> Bench<'a> {
    fn new(rng: &'a mut Rng, part: u32, knobs: &'a Knobs) -> Bench<'a> {
        let (_, model) = Model::make(part, knobs.pins, knobs.bits);
        Bench {
            rng,
            knobs,
            part: model.part(),
            memory: first_memory(model.part().size),
            model,
            out: Vec::new(),
            wires: 0,
            moving: false,
        }
    }

    /// Power on, then commands or transfers.
    fn fill(&mut self) {
        self.power_on();
        let blocks = 1 + self.rng.below(self.knobs.blocks);
        let moving_from = self.rng.below(blocks);
        for block in 0..blocks {
            self.moving = block >= moving_from;
            match self.part.wires {
                Wires::Spi => self.spi_block(),
                Wires::I2c => self.i2c_block(),
            }
            if self.rng.chance(30) {
                self.power_off_on();
            }
        }
        if self.rng.chance(300) {
            self.push(&[3]);
        }
    }

    fn push(&mut self, event: &[u8]) {
        self.out.extend_from_slice(event);
        self.model.event(event, &mut self.memory);
    }

    fn power_on(&mut self) {
        self.stray();
        let any = self.rng.byte() & self.part.max_sample();
        match self.part.wires {
            Wires::Spi => {
                let idle = spi_pin::CS | spi_pin::HOLD | any & (spi_pin::WP | spi_pin::SCK);
                self.wires = if self.rng.chance(850) { idle } else { any };
                self.push(&[1, self.wires]);
            }
            Wires::I2c => {
                let idle = i2c_pin::SCL | i2c_pin::SDA;
                self.wires = if self.rng.chance(850) { idle } else { any };
                let start = self.address() % self.part.size as u32;
                self.push(&i2c_on(self.wires, start));
            }
        }
        self.stray();
    }

    fn power_off_on(&mut self) {
        self.push(&[3]);
        self.power_on();
    }

    /// An event that is refused for want of power or for power.
    fn stray(&mut self) {
        if self.rng.chance(self.knobs.stray) {
            let kind = self.rng.pick(&[1, 2, 3, 4, 5]);
            let powered = self.model.powered();
            match kind {
                1 if powered => self.push(&[1, 0]),
                2 if powered => self.push(&[2, 0, 0, 0, 0]),
                3 if !powered => self.push(&[3]),
                4 | 5 if !powered => self.push(&[kind, 2]),
                _ => {}
            }
        }
    }

    /// One sample, with write protect as told or moved; a right (or wrong) 05 or a power cut may
    /// follow.
    fn send(&mut self, wires: u8) {
        self.wires = self.moved(wires, self.knobs.moved);
        self.push(&[4, self.wires]);
        if self.rng.chance(self.knobs.expect) {
            let answer = self.model.answer();
            let wrong = self.rng.chance(self.knobs.wrong);
            let value = if wrong {
                (answer + 1 + self.rng.byte() % 2) % 3
            } else {
                answer
            };
            self.push(&[5, value]);
        }
        if self.rng.chance(self.knobs.cut) {
            self.power_off_on();
        }
    }

    /// A sample in which CS# falls or rises, or with START or STOP. Here it tells most whether
    /// write protect moves with it.
    fn send_border(&mut self, wires: u8) {
        let wires = self.moved(wires, self.knobs.border);
        self.send(wires);
    }

    /// The wires, in so many of a thousand cases with write protect moved.
    fn moved(&mut self, wires: u8, per_mille: u32) -> u8 {
        if self.moving && self.rng.chance(per_mille) {
            wires ^ self.part.protect_pin()
        } else {
            wires
        }
    }

    /// Sends the wires with these bits set and those cleared.
    fn change(&mut self, set: u8, clear: u8) {
        self.send(self.wires & !clear | set);
    }

    /// Sends the wires with one bit high or low.
    fn put(&mut self, wire: u8, high: bool) {
        self.change(if high { wire } else { 0 }, wire);
    }

    /// An address as `border_address` draws it.
    fn address(&mut self) -> u32 {
        border_address(self.rng, self.part)
    }
}

/// Where the protected range starts with drawn block bits. I2C parts have no block protection, and
/// their bits are 0; the draw is made for them too, since a seed would give another trace without it.
fn protected_border(rng: &mut Rng, part: &Part) -> u32 {
    let drawn = rng.below(4) as u8;
    let bits = match part.wires {
        Wires::Spi => drawn,
        Wires::I2c => 0,
    };
    part.protected_from(bits) as u32
}

/// An address near a border, near the top, near 0, or any; sometimes past the size.
fn border_address(rng: &mut Rng, part: &Part) -> u32 {
    let size = part.size as u32;
    let border = protected_border(rng, part);
    let near = rng.pick(&[border, size, 0x10000, 0, size / 2]);
    let step = rng.below(4) as u32;
    match rng.below(5) {
        0 => rng.draw() as u32 & 0xff_ffff,
        1 => near.wrapping_add(step) & 0xff_ffff,
        2 => near.wrapping_add(size).wrapping_sub(step) & 0xff_ffff,
        _ => near.wrapping_sub(step) % size,
    }
}
