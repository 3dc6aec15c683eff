//! I2C transfers: whole ones, short ones, and what disturbs them.

use super::Bench;
use crate::part::i2c_pin;

impl Bench<'_> {
    /// A transfer, sometimes with WP moved before it, more often to low, so that the part stores.
    pub(super) fn i2c_block(&mut self) {
        let low = self.wires & i2c_pin::WP == 0;
        if self.rng.chance(if low { 50 } else { 350 }) {
            self.put(i2c_pin::WP, low);
        }
        let address = self.address();
        match self.rng.below(10) {
            0..=3 => {
                self.write_transfer(address);
                let bytes = self.rng.pick(&[0, 1, 2, 4, 7]);
                for _ in 0..bytes {
                    let byte = self.rng.byte();
                    self.byte(byte, true);
                }
            }
            4..=5 => {
                self.write_transfer(address);
                self.read_transfer(address);
            }
            6..=7 => self.read_transfer(address),
            _ => {
                self.start();
                let any = self.rng.byte();
                let word = self
                    .rng
                    .pick(&[0x08, 0x0f, 0xf8, 0xf9, 0xa0, 0xa3, 0xae, any]);
                self.byte(word, true);
                for _ in 0..self.rng.below(4) {
                    let byte = self.rng.byte();
                    self.byte(byte, true);
                }
            }
        }
        self.finish();
    }

    /// The word of the part, or now and then another.
    fn word(&mut self, address: u32, read: bool) -> u8 {
        let pins = self.model.pins();
        let a16 = if self.rng.chance(800) {
            address >> 16 & 1
        } else {
            self.rng.below(2) as u32
        };
        let place = if self.part.number == 3 {
            pins << 1
        } else {
            pins << 2 | a16 << 1
        };
        let word = 0xa0 | place as u8 | u8::from(read);
        if self.rng.chance(30) {
            word ^ 1 << self.rng.below(8)
        } else {
            word
        }
    }

    /// START, a write word and the two address bytes, sometimes fewer.
    fn write_transfer(&mut self, address: u32) {
        self.start();
        let word = self.word(address, false);
        self.byte(word, true);
        let [_, _, high, low] = address.to_be_bytes();
        if self.rng.chance(970) {
            self.byte(high, true);
            if self.rng.chance(970) {
                self.byte(low, true);
            }
        }
    }

    /// START, a read word and bytes, the last one with NACK as a rule.
    fn read_transfer(&mut self, address: u32) {
        self.start();
        let word = self.word(address, true);
        self.byte(word, true);
        let bytes = self.rng.pick(&[0, 1, 1, 2, 3]);
        for left in (0..bytes).rev() {
            let high = (left == 0) != self.rng.chance(80);
            self.byte(0xff, high);
        }
    }

    /// STOP, nothing, a STOP in mid byte, or extra clocks.
    fn finish(&mut self) {
        if self.rng.chance(80) {
            for _ in 0..self.rng.below(9) {
                let bit = self.rng.chance(500);
                self.i2c_bit(bit);
            }
        }
        if self.rng.chance(850) {
            self.stop();
        }
    }

    /// SDA falls with SCL high, then SCL falls.
    fn start(&mut self) {
        use i2c_pin::{SCL, SDA};
        if self.wires & (SCL | SDA) != SCL | SDA {
            if self.wires & SCL != 0 {
                self.change(0, SCL);
            }
            self.change(SDA, 0);
            self.change(SCL, 0);
        }
        self.send_border(self.wires & !SDA);
        if self.rng.chance(900) {
            self.change(0, SCL);
        }
    }

    /// SDA rises with SCL high.
    fn stop(&mut self) {
        use i2c_pin::{SCL, SDA};
        if self.wires & SCL != 0 {
            self.change(0, SCL);
        }
        self.change(0, SDA);
        self.change(SCL, 0);
        self.send_border(self.wires | SDA);
    }

    /// Eight bits and the ninth clock.
    fn byte(&mut self, byte: u8, ninth: bool) {
        for place in (0..8).rev() {
            self.i2c_bit(byte >> place & 1 != 0);
        }
        self.i2c_bit(ninth);
    }

    /// SDA moves with SCL low, then SCL goes up and down.
    fn i2c_bit(&mut self, bit: bool) {
        use i2c_pin::{SCL, SDA};
        if self.rng.chance(self.knobs.glitch) {
            self.i2c_glitch();
        }
        let sda = if bit { SDA } else { 0 };
        if self.wires & SCL != 0 {
            self.change(0, SCL);
        }
        if self.wires & SDA != sda && self.rng.chance(700) {
            self.change(sda, SDA);
        }
        self.change(sda | SCL, SDA);
        if self.rng.chance(800) {
            self.change(0, SCL);
        } else {
            // SCL and SDA fall or rise in the same sample.
            self.send((self.wires ^ SDA) & !SCL);
        }
    }

    /// A START or STOP in mid byte, a moved WP, a sample twice, or any sample.
    fn i2c_glitch(&mut self) {
        use i2c_pin::{SCL, SDA, WP};
        match self.rng.below(6) {
            0 => self.start(),
            1 => self.stop(),
            2 => self.send(self.wires ^ WP),
            3 => self.send(self.wires),
            4 => {
                self.change(SCL, 0);
                self.send(self.wires ^ SDA);
            }
            _ => {
                let any = self.rng.byte() & 7;
                self.send(any);
            }
        }
    }
}
