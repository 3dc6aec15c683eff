//! Streams of pin events: one long trace each, for the programs that take times.

use crate::script::{addressed, Script};
use twin::gen::Rng;
use twin::part::{i2c_pin, spi_pin, Wires};
use twin::trace::events;
use twin::{Model, PARTS};

/// Data bytes of a stream: the largest memory once.
const BYTES: usize = 262_144;

pub struct Stream {
    pub name: &'static str,
    pub part: u32,
    pub trace: Vec<u8>,
    /// Whether an event of it has the flag.
    pub flagged: bool,
}

/// Each kind of stream once, on the smallest part of its bus.
pub fn kinds() -> [Stream; 10] {
    [
        spi_write(0),
        spi_read(0),
        i2c_write(3),
        i2c_read(3),
        random(0),
        random(3),
        spi_flagged(0),
        i2c_flagged(3),
        expected("SPI checked", spi_read(0)),
        expected("I2C checked", i2c_read(3)),
    ]
}

/// One WRITE that goes round the memory.
pub fn spi_write(part: u32) -> Stream {
    let mut rng = Rng::new(1);
    let mut script = Script::spi();
    script.command(&[6]);
    script.select();
    script.bytes(&addressed(part, 2, 0));
    for _ in 0..BYTES {
        script.byte(rng.byte());
    }
    script.deselect();
    Stream {
        name: "SPI write",
        part,
        trace: script.into_trace(),
        flagged: false,
    }
}

/// One READ that goes round the memory.
pub fn spi_read(part: u32) -> Stream {
    let mut script = Script::spi();
    script.ask(&addressed(part, 3, 0), BYTES);
    Stream {
        name: "SPI read",
        part,
        trace: script.into_trace(),
        flagged: false,
    }
}

/// One write transfer that goes round the memory.
fn i2c_write(part: u32) -> Stream {
    let mut rng = Rng::new(2);
    let mut script = Script::i2c(0);
    script.start();
    script.give_all(&[0xa0, 0, 0]);
    for _ in 0..BYTES {
        script.give(rng.byte());
    }
    script.stop();
    Stream {
        name: "I2C write",
        part,
        trace: script.into_trace(),
        flagged: false,
    }
}

/// One read transfer that goes round the memory.
fn i2c_read(part: u32) -> Stream {
    let mut script = Script::i2c(0);
    script.start();
    script.give(0xa1);
    for _ in 0..BYTES {
        script.take(true);
    }
    script.take(false);
    script.stop();
    Stream {
        name: "I2C read",
        part,
        trace: script.into_trace(),
        flagged: false,
    }
}

/// One WRITE with WP# moved before each bit, so that every other event has the flag.
fn spi_flagged(part: u32) -> Stream {
    let mut rng = Rng::new(5);
    let mut script = Script::spi();
    script.command(&[6]);
    script.select();
    script.bytes(&addressed(part, 2, 0));
    for _ in 0..8 * BYTES {
        script.others ^= spi_pin::WP;
        script.bit(rng.chance(500));
    }
    script.deselect();
    Stream {
        name: "SPI flagged",
        part,
        trace: script.into_trace(),
        flagged: true,
    }
}

/// One write transfer with WP moved before each clock, so that every other event has the flag. WP is
/// low in the ninth clock of every other byte, which is stored.
fn i2c_flagged(part: u32) -> Stream {
    let mut rng = Rng::new(6);
    let mut script = Script::i2c(0);
    script.start();
    script.give_all(&[0xa0, 0, 0]);
    for clock in 0..9 * BYTES {
        script.others ^= i2c_pin::WP;
        script.clock(clock % 9 == 8 || rng.chance(500));
    }
    script.stop();
    Stream {
        name: "I2C flagged",
        part,
        trace: script.into_trace(),
        flagged: true,
    }
}

/// The same stream with the answer of each event expected after it.
fn expected(name: &'static str, stream: Stream) -> Stream {
    let (_, mut model) = Model::make(stream.part, 0, 0);
    let mut memory = vec![0; PARTS[stream.part as usize].size];
    let checked = events(&stream.trace).flat_map(|event| {
        let (_, answer, _) = model.event(event, &mut memory);
        [event, &[5, answer]].concat()
    });
    Stream {
        name,
        trace: checked.collect(),
        ..stream
    }
}

/// Any samples at all, after power on.
fn random(part: u32) -> Stream {
    let mut rng = Rng::new(3);
    let table = &PARTS[part as usize];
    let (name, mut script) = match table.wires {
        Wires::Spi => ("SPI random", Script::spi()),
        Wires::I2c => ("I2C random", Script::i2c(0)),
    };
    for _ in 0..16 * BYTES {
        script.event(&[4, rng.byte() & table.max_sample()]);
    }
    Stream {
        name,
        part,
        trace: script.into_trace(),
        flagged: true,
    }
}
