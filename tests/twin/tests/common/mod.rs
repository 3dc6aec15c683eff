//! Masters for the two buses, as plain as can be.

#[allow(dead_code)]
pub mod pins;

use twin::text::first_memory;
use twin::trace::i2c_on;
use twin::Model;

pub struct Bus {
    pub model: Model,
    pub memory: Vec<u8>,
    /// WP# high and HOLD# high on SPI; WP low on I2C.
    pub others: u8,
}

impl Bus {
    pub fn make(part: u32, pins: u32, bits: u32) -> Bus {
        let (number, model) = Model::make(part, pins, bits);
        assert_eq!(number, 0);
        let memory = first_memory(model.part().size);
        Bus {
            model,
            memory,
            others: 0,
        }
    }

    /// The answer of an event that must be accepted.
    pub fn event(&mut self, bytes: &[u8]) -> u8 {
        self.given(bytes).0
    }

    /// Its answer and its flag.
    pub fn given(&mut self, bytes: &[u8]) -> (u8, bool) {
        let (number, answer, flag) = self.model.event(bytes, &mut self.memory);
        assert_eq!(number, 0, "{bytes:02x?}");
        (answer, flag)
    }
}

#[allow(dead_code)]
impl Bus {
    /// A SPI part under power, not selected.
    pub fn spi(part: u32, bits: u32) -> Bus {
        let mut bus = Bus::make(part, 0, bits);
        bus.others = 24;
        bus.event(&[1, 25]);
        bus
    }

    pub fn spi_sample(&mut self, cs: u8, sck: u8, si: u8) -> u8 {
        self.event(&[4, cs | sck << 1 | si << 2 | self.others])
    }

    pub fn select(&mut self) {
        self.spi_sample(0, 0, 0);
    }

    pub fn deselect(&mut self) {
        assert_eq!(self.spi_sample(1, 0, 0), 2);
    }

    /// One bit in; the answer after the fall that follows it.
    pub fn bit(&mut self, si: u8) -> u8 {
        self.spi_sample(0, 0, si);
        self.spi_sample(0, 1, si);
        self.spi_sample(0, 0, si)
    }

    /// Bits in, fewer than a byte.
    pub fn bits(&mut self, bits: &[u8]) {
        for &bit in bits {
            self.bit(bit);
        }
    }

    /// Bytes in; the answers after the falls.
    pub fn bytes(&mut self, bytes: &[u8]) -> Vec<u8> {
        let bits = bytes
            .iter()
            .flat_map(|byte| (0..8).rev().map(move |place| byte >> place & 1));
        bits.map(|bit| self.bit(bit)).collect()
    }

    /// A whole selection of bytes.
    pub fn command(&mut self, bytes: &[u8]) {
        self.select();
        self.bytes(bytes);
        self.deselect();
    }

    /// Bytes in, then `count` bytes out; None where nothing was driven.
    pub fn ask(&mut self, bytes: &[u8], count: usize) -> Vec<Option<u8>> {
        self.select();
        let head = self.bytes(bytes);
        let mut answers = vec![*head.last().unwrap()];
        answers.extend(self.bytes(&vec![0; count]));
        self.deselect();
        let byte = |eight: &[u8]| {
            let driven = eight.iter().all(|&answer| answer < 2);
            driven.then(|| eight.iter().fold(0, |sum, &bit| sum << 1 | bit))
        };
        answers[..8 * count].chunks(8).map(byte).collect()
    }

    pub fn status(&mut self) -> u8 {
        self.ask(&[5], 1)[0].unwrap()
    }
}

#[allow(dead_code)]
impl Bus {
    /// An I2C part under power, at rest.
    pub fn i2c(part: u32, pins: u32, start: u32) -> Bus {
        let mut bus = Bus::make(part, pins, 0);
        bus.event(&i2c_on(3, start));
        bus
    }

    pub fn i2c_sample(&mut self, scl: u8, sda: u8) -> u8 {
        self.event(&[4, scl | sda << 1 | self.others])
    }

    pub fn start(&mut self) {
        for (scl, sda) in [(0, 1), (1, 1), (1, 0), (0, 0)] {
            self.i2c_sample(scl, sda);
        }
    }

    pub fn stop(&mut self) {
        for (scl, sda) in [(0, 0), (1, 0), (1, 1)] {
            self.i2c_sample(scl, sda);
        }
    }

    /// One clock: the line as the master sees it while SCL is high.
    pub fn clock(&mut self, sda: u8) -> u8 {
        self.i2c_sample(0, sda);
        let answer = self.i2c_sample(1, sda);
        self.i2c_sample(0, sda);
        if answer == 0 {
            0
        } else {
            sda
        }
    }

    /// A byte to the part; true if it was acknowledged.
    pub fn give(&mut self, byte: u8) -> bool {
        for place in (0..8).rev() {
            let bit = byte >> place & 1;
            assert_eq!(self.clock(bit), bit);
        }
        self.clock(1) == 0
    }

    /// A byte from the part, with an acknowledge or without.
    pub fn take(&mut self, acknowledge: bool) -> u8 {
        let byte = (0..8).fold(0, |sum, _| sum << 1 | self.clock(1));
        self.clock(u8::from(!acknowledge));
        byte
    }
}
