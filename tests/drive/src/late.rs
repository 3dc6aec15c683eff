//! Ask 6: WRITEs of three data bytes with many things behind the last rise of each, and which event
//! stores each byte. This is told from the wires alone: on part 1 the byte waits until CS# rises or the
//! next counted rise, and on the other SPI parts its own last rise stores it.

use crate::script::{addressed, Script};
use crate::Making;
use std::collections::BTreeSet;
use twin::part::spi_pin::{CS, HOLD, SCK};
use twin::text::{first_byte, first_memory};
use twin::PARTS;

/// The part that stores late.
pub const LATE: u32 = 1;

/// A data byte.
#[derive(Clone, Copy, Debug)]
pub struct Data {
    pub address: usize,
    pub byte: u8,
    /// The event of its last rise, counted from 0.
    pub finished: usize,
    /// The event that stores it, or would store it if it were permitted.
    pub followed: usize,
    /// Whether it has its enable and is not protected.
    pub permitted: bool,
}

/// A trace in which every event has a sample: power on, mostly WREN, and a WRITE.
#[derive(Clone, Debug)]
pub struct Write {
    pub making: Making,
    pub trace: Vec<u8>,
    pub data: Vec<Data>,
}

/// What a part is made with, whether WREN comes first, and where the first byte goes.
#[derive(Clone, Copy)]
struct Setup {
    making: Making,
    enabled: bool,
    address: usize,
}

/// Over the top, the same without an enable, and, on the parts that can be made so, with the upper half
/// protected, from two bytes below it on.
fn setups(part: u32) -> Vec<Setup> {
    let size = PARTS[part as usize].size;
    let with = |bits, enabled, address| Setup {
        making: Making::new(part, 0, bits),
        enabled,
        address,
    };
    let mut setups = vec![with(0, true, size - 2), with(0, false, size - 2)];
    if part != 0 {
        setups.push(with(2, true, size / 2 - 2));
    }
    setups
}

impl Setup {
    fn permitted(&self, address: usize) -> bool {
        let size = PARTS[self.making.part as usize].size;
        let border = if self.making.bits == 0 {
            size
        } else {
            size / 2
        };
        self.enabled && address < border
    }
}

/// Behind the last rise of a data byte, after which SCK is high: nothing; a hold with a rise in it; a
/// fall and a hold with rises at both of its ends; wires that do not count.
const BETWEEN: [&[u8]; 4] = [
    &[],
    &[0x0a, 0x08, 0x0a, 0x1a],
    &[0x18, 0x0a, 0x08, 0x1a],
    &[0x1a, 0x1e, 0x12, 0x18, 0x1c],
];

/// Behind all of them: CS# rises with SCK low, with SCK high, as SCK falls, in a hold.
const ENDS: [&[u8]; 4] = [&[0x18, 0x19], &[0x1b], &[0x19], &[0x0a, 0x08, 0x09]];

/// All that a part has of them.
pub fn writes(part: u32) -> Vec<Write> {
    let of_setup = |setup: Setup| {
        let between = BETWEEN.iter().map(move |between| (setup, *between));
        between.flat_map(|(setup, between)| ENDS.map(|end| write(setup, between, end)))
    };
    setups(part).into_iter().flat_map(of_setup).collect()
}

/// The data bytes, other than what is there.
fn byte_for(address: usize) -> u8 {
    first_byte(address) ^ 0xa5
}

fn write(setup: Setup, between: &[u8], end: &[u8]) -> Write {
    let Making { part, .. } = setup.making;
    let size = PARTS[part as usize].size;
    let mut script = Script::spi();
    if setup.enabled {
        script.command(&[6]);
    }
    script.select();
    script.bytes(&addressed(part, 2, setup.address));
    let mut finished = Vec::new();
    for address in (0..3).map(|more| (setup.address + more) % size) {
        script.byte(byte_for(address));
        finished.push((address, script.events() - 1));
        samples(&mut script, between);
    }
    samples(&mut script, end);
    // A look at rest, so that there are events behind CS# rising.
    samples(&mut script, &[0x19, 0x1b, 0x19, 0x19]);
    let trace = script.into_trace();
    let data = |(address, finished): (usize, usize)| Data {
        address,
        byte: byte_for(address),
        finished,
        followed: followed(part, &trace, finished),
        permitted: setup.permitted(address),
    };
    Write {
        making: setup.making,
        data: finished.into_iter().map(data).collect(),
        trace,
    }
}

fn samples(script: &mut Script, samples: &[u8]) {
    samples.iter().for_each(|&sample| {
        script.event(&[4, sample]);
    });
}

/// The event that stores a byte whose last rise is this one.
fn followed(part: u32, trace: &[u8], finished: usize) -> usize {
    let sample = |event: usize| trace[2 * event + 1];
    let mut behind = finished + 1..trace.len() / 2;
    match part {
        LATE => behind.find(|&event| follows(sample(event - 1), sample(event))),
        _ => Some(finished),
    }
    .expect("each byte is followed")
}

/// Whether a byte that waits is stored with a sample: CS# rises, or SCK rises with CS# 0 and HOLD# 1 in
/// both samples.
pub fn follows(old: u8, new: u8) -> bool {
    let ends = old & CS == 0 && new & CS != 0;
    let rises = old & SCK == 0 && new & SCK != 0;
    ends || rises && (old | new) & CS == 0 && old & new & HOLD != 0
}

impl Write {
    /// The memory behind so many events.
    pub fn memory(&self, events: usize) -> Vec<u8> {
        let mut memory = first_memory(PARTS[self.making.part as usize].size);
        let stored = |data: &&Data| data.permitted && data.followed < events;
        for data in self.data.iter().filter(stored) {
            memory[data.address] = data.byte;
        }
        memory
    }

    /// The byte that waits behind so many events.
    pub fn waiting(&self, events: usize) -> Option<&Data> {
        let waits = |data: &&Data| data.finished < events && events <= data.followed;
        self.data.iter().find(waits)
    }

    /// How many events come before a cut: the last of them is one from four before the last rise of a
    /// data byte to two behind what stores it.
    pub fn around(&self) -> BTreeSet<usize> {
        let near = |data: &Data| data.finished - 3..data.followed + 4;
        self.data.iter().flat_map(near).collect()
    }

    pub fn events(&self) -> usize {
        self.trace.len() / 2
    }
}
