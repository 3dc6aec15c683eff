//! SPI selections: whole commands, short ones, and what disturbs them.

use super::Bench;
use crate::part::spi_pin;

/// The codes the generator sends: all nine and some that no part has.
const CODES: [u8; 13] = [
    0x06, 0x04, 0x05, 0x01, 0x03, 0x02, 0x0b, 0x9f, 0xb9, 0x00, 0xff, 0xab, 0x07,
];

impl Bench<'_> {
    /// A command by itself, or one with its WREN before it and perhaps a look after it.
    pub(super) fn spi_block(&mut self) {
        if self.rng.chance(100) {
            self.put(spi_pin::WP, false);
        } else if self.rng.chance(150) {
            self.put(spi_pin::WP, true);
        }
        match self.rng.below(10) {
            0..=3 => {
                let code = self.rng.pick(&[0x02, 0x02, 0x01]);
                if self.rng.chance(900) {
                    self.command(0x06);
                }
                self.command(code);
                if self.rng.chance(400) {
                    let look = self.rng.pick(&[0x05, 0x03, 0x0b, 0x02]);
                    self.command(look);
                }
            }
            4 => {
                let (any, known) = (self.rng.byte(), self.rng.pick(&CODES));
                let code = if self.rng.chance(500) { any } else { known };
                self.command(code);
            }
            _ => {
                let known = self.rng.pick(&CODES);
                self.command(known);
            }
        }
    }

    /// One selection.
    fn command(&mut self, code: u8) {
        use spi_pin::{CS, HOLD, SCK};
        if self.wires & CS == 0 {
            self.change(CS | HOLD, 0);
        }
        let clock = if self.rng.chance(800) { SCK } else { 0 };
        self.send_border(self.wires & !(CS | clock) | HOLD);
        if self.rng.chance(20) {
            let short = self.rng.below(8);
            self.bits(u64::from(code) >> (8 - short), short);
        } else {
            self.bits(u64::from(code), 8);
            self.after_code(code);
        }
        if self.rng.chance(500) {
            self.change(0, SCK);
        }
        // CS# rises, sometimes with the clock or HOLD# in the same sample.
        let extra = if self.rng.chance(100) {
            self.rng.pick(&[SCK, HOLD])
        } else {
            0
        };
        self.send_border((self.wires ^ extra) | CS);
        if self.rng.chance(100) {
            self.stray_clocks(CS, CS);
        }
    }

    /// Address and data as the code wants them, sometimes cut short in mid byte.
    fn after_code(&mut self, code: u8) {
        if matches!(code, 0x02 | 0x03 | 0x0b) {
            let address = u64::from(self.address());
            let width = self.part.address_bits;
            if self.rng.chance(30) {
                let short = self.rng.below(width);
                self.bits(address >> short, width - short);
                return;
            }
            self.bits(address, width);
        }
        let bytes = match code {
            0x06 | 0x04 | 0xb9 => self.rng.pick(&[0, 0, 0, 1]),
            0x01 => self.rng.pick(&[0, 1, 1, 1, 2]),
            0x9f => self.rng.pick(&[1, 3, 4]),
            _ => self.rng.pick(&[0, 1, 2, 3, 5, 9]),
        };
        for _ in 0..bytes {
            // The status bits most wanted are those that leave something to write.
            let wanted = self.rng.pick(&[0x00, 0x04, 0x08, 0x0c, 0x80, 0x84, 0xff]);
            let byte = if code == 1 { wanted } else { self.rng.byte() };
            self.bits(u64::from(byte), 8);
            if code == 2 && self.rng.chance(self.knobs.byte_end) && self.behind_byte() {
                return;
            }
        }
        if self.rng.chance(150) {
            let partial = 1 + self.rng.below(7);
            let any = self.rng.draw();
            self.bits(any, partial);
        }
    }

    /// What comes behind the last rise of a data byte, at once or after SCK has fallen: a hold, CS#
    /// rising in a hold or without, or a power cut. Whether it ends the selection.
    fn behind_byte(&mut self) -> bool {
        use spi_pin::{CS, HOLD, SCK};
        if self.rng.chance(500) {
            self.change(0, SCK);
        }
        match self.rng.below(6) {
            0..=2 => {
                self.hold();
                return false;
            }
            3 => {
                self.send(self.wires & !HOLD);
                self.stray_clocks(HOLD, 0);
                let with = self.rng.pick(&[0, SCK, HOLD]);
                self.send((self.wires ^ with) | CS);
            }
            4 => {
                let with = self.rng.pick(&[0, SCK, HOLD]);
                self.send((self.wires ^ with) | CS);
            }
            _ => self.power_off_on(),
        }
        true
    }

    /// HOLD# falls and rises, sometimes in the same sample as SCK, with clocks between.
    fn hold(&mut self) {
        use spi_pin::{HOLD, SCK};
        let with = if self.rng.chance(400) { SCK } else { 0 };
        self.send((self.wires ^ with) & !HOLD);
        self.stray_clocks(HOLD, 0);
        let with = if self.rng.chance(400) { SCK } else { 0 };
        self.send((self.wires ^ with) | HOLD);
    }

    /// The lowest `count` bits, most significant first.
    fn bits(&mut self, bits: u64, count: u64) {
        for place in (0..count).rev() {
            self.spi_bit(bits >> place & 1 != 0);
        }
    }

    /// A fall (if the clock is high) with the new bit, and a rise.
    fn spi_bit(&mut self, bit: bool) {
        use spi_pin::{SCK, SI};
        let si = if bit { SI } else { 0 };
        if self.rng.chance(self.knobs.glitch) {
            self.spi_glitch();
        }
        if self.wires & SCK != 0 || self.rng.chance(100) {
            self.change(si, SCK | SI);
            self.change(SCK, 0);
        } else {
            self.change(si | SCK, SI);
        }
    }

    /// A hold, a lost selection, a moved WP#, or clock edges in the same sample as another wire.
    fn spi_glitch(&mut self) {
        use spi_pin::{CS, HOLD, SCK, SI, WP};
        match self.rng.below(10) {
            0..=3 => self.hold(),
            4 => {
                let with = self.rng.pick(&[0, SCK, HOLD]);
                self.send((self.wires ^ with) | CS);
                if self.rng.chance(500) {
                    self.send(self.wires & !CS | HOLD);
                }
            }
            5 => self.send(self.wires ^ WP),
            6 => self.send(self.wires),
            7 => self.send(self.wires ^ SI),
            8 => self.send((self.wires ^ SCK) & !CS),
            _ => {
                let any = self.rng.byte() & 31;
                self.send(any);
            }
        }
    }

    /// Clocks that do not count, while `wire` stands as told.
    fn stray_clocks(&mut self, wire: u8, state: u8) {
        for _ in 0..self.rng.below(6) {
            let flip = self.rng.pick(&[spi_pin::SCK, spi_pin::SCK, spi_pin::SI]);
            self.send((self.wires ^ flip) & !wire | state);
        }
    }
}
