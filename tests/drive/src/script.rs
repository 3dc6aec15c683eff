//! Masters for the two buses, as plain as can be. They write down a trace and say at which of its
//! events an answer is to be looked at, since a run is one call and its answers come at the end.

use twin::part::{i2c_pin, spi_pin};
use twin::trace::i2c_on;
use twin::PARTS;

/// The events at which the eight bits of a byte are shown, most significant first.
pub type Places = [usize; 8];

/// A trace under way.
#[derive(Clone, Debug, Default)]
pub struct Script {
    trace: Vec<u8>,
    events: usize,
    /// The wires that stay as they are: WP# and HOLD# on SPI, WP on I2C.
    pub others: u8,
}

impl Script {
    /// A script that begins with the power on of a SPI part, WP# and HOLD# high.
    pub fn spi() -> Script {
        let mut script = Script::default();
        script.spi_on();
        script
    }

    /// A script that begins with the power on of an I2C part, WP low.
    pub fn i2c(start: u32) -> Script {
        let mut script = Script::default();
        script.i2c_on(start);
        script
    }

    pub fn trace(&self) -> &[u8] {
        &self.trace
    }

    pub fn into_trace(self) -> Vec<u8> {
        self.trace
    }

    /// The events so far.
    pub fn events(&self) -> usize {
        self.events
    }

    /// One event; its place, counted from 0.
    pub fn event(&mut self, bytes: &[u8]) -> usize {
        self.trace.extend_from_slice(bytes);
        self.events += 1;
        self.events - 1
    }

    pub fn power_off(&mut self) {
        self.event(&[3]);
    }

    /// One sample, with the other wires as they are; its place.
    pub fn sample(&mut self, wires: u8) -> usize {
        self.event(&[4, wires | self.others])
    }
}

/// SPI: two samples to a bit, SCK low and then high.
impl Script {
    /// Power on, not selected.
    pub fn spi_on(&mut self) {
        self.others = spi_pin::WP | spi_pin::HOLD;
        self.event(&[1, spi_pin::CS | self.others]);
    }

    pub fn select(&mut self) {
        self.sample(0);
    }

    /// CS# rises, SCK low before it and then.
    pub fn deselect(&mut self) {
        self.sample(0);
        self.sample(spi_pin::CS);
    }

    /// A bit in; the place where the bit that goes out beside it is shown.
    pub fn bit(&mut self, bit: bool) -> usize {
        let si = if bit { spi_pin::SI } else { 0 };
        let place = self.sample(si);
        self.sample(si | spi_pin::SCK);
        place
    }

    pub fn byte(&mut self, byte: u8) -> Places {
        [7, 6, 5, 4, 3, 2, 1, 0].map(|at| self.bit(byte >> at & 1 != 0))
    }

    pub fn bytes(&mut self, bytes: &[u8]) {
        for &byte in bytes {
            self.byte(byte);
        }
    }

    /// A selection of whole bytes.
    pub fn command(&mut self, bytes: &[u8]) {
        self.select();
        self.bytes(bytes);
        self.deselect();
    }

    /// A selection of whole bytes and then some ones, fewer than eight.
    pub fn command_and_ones(&mut self, bytes: &[u8], ones: usize) {
        self.select();
        self.bytes(bytes);
        for _ in 0..ones {
            self.bit(true);
        }
        self.deselect();
    }

    /// A selection that sends a head and then asks for bytes; where these are shown.
    pub fn ask(&mut self, head: &[u8], count: usize) -> Vec<Places> {
        self.select();
        self.bytes(head);
        let places = (0..count).map(|_| self.byte(0)).collect();
        self.deselect();
        places
    }

    pub fn ask_status(&mut self) -> Places {
        self.ask(&[5], 1)[0]
    }
}

/// A code and an address as the SPI part of this number takes them.
pub fn addressed(part: u32, code: u8, address: usize) -> Vec<u8> {
    PARTS[part as usize].addressed(code, address)
}

/// I2C: two samples to a clock, SCL low and then high.
impl Script {
    /// Power on, at rest.
    pub fn i2c_on(&mut self, start: u32) {
        self.others = 0;
        self.event(&i2c_on(i2c_pin::SCL | i2c_pin::SDA, start));
    }

    /// SDA falls with SCL high.
    pub fn start(&mut self) {
        self.sample(i2c_pin::SDA);
        self.sample(i2c_pin::SDA | i2c_pin::SCL);
        self.sample(i2c_pin::SCL);
    }

    /// SDA rises with SCL high.
    pub fn stop(&mut self) {
        self.sample(0);
        self.sample(i2c_pin::SCL);
        self.sample(i2c_pin::SCL | i2c_pin::SDA);
    }

    /// One clock; the place where the line is looked at.
    pub fn clock(&mut self, bit: bool) -> usize {
        let sda = if bit { i2c_pin::SDA } else { 0 };
        self.sample(sda);
        self.sample(sda | i2c_pin::SCL)
    }

    /// A byte to the part; the place of its acknowledge.
    pub fn give(&mut self, byte: u8) -> usize {
        for at in (0..8).rev() {
            self.clock(byte >> at & 1 != 0);
        }
        self.clock(true)
    }

    pub fn give_all(&mut self, bytes: &[u8]) -> Vec<usize> {
        bytes.iter().map(|&byte| self.give(byte)).collect()
    }

    /// A byte from the part, with an acknowledge or without.
    pub fn take(&mut self, acknowledge: bool) -> Places {
        let places = [(); 8].map(|()| self.clock(true));
        self.clock(!acknowledge);
        places
    }
}

/// The byte that a SPI part drove at these places; None where it drove nothing.
pub fn driven(answers: &[u8], places: &Places) -> Option<u8> {
    let bit = |byte, &place: &usize| match answers[place] {
        twin::NOTHING => None,
        answer => Some(byte << 1 | answer),
    };
    places.iter().try_fold(0, bit)
}

/// The byte that the line showed at these places while the master let go of it.
pub fn line(answers: &[u8], places: &Places) -> u8 {
    let bit = |byte, &place: &usize| byte << 1 | u8::from(answers[place] != twin::LOW);
    places.iter().fold(0, bit)
}
