//! Where in its traffic a sample lies, told from the wires and the answers alone.

use twin::part::{i2c_pin, spi_pin};
use twin::{Part, LOW};

/// Where a sample lies, by what the sample before and those up to it were.
#[derive(Clone, Copy, Debug, PartialEq, Eq, PartialOrd, Ord)]
pub enum Place {
    /// CS# is 1 in both samples, falls or rises.
    Unselected,
    Fall,
    Rise,
    /// CS# is 0 in both: without an edge of SCK, with one, in a hold or at its ends.
    Selected,
    Clocked,
    Held,
    /// The same, but deaf: since power on, after SLEEP, after a code that the part lacks.
    SelectedAtPowerOn,
    Asleep,
    UnknownCode,
    /// No START since power on or STOP: START here, STOP here, or neither.
    StartAtRest,
    StopAtRest,
    Rest,
    /// Since START: START here, STOP here, or neither.
    StartAgain,
    Stop,
    Between,
    /// The same as Between, but deaf: after another word, after a master's high.
    OtherWord,
    AfterHigh,
}

use Place::*;

/// Those of each bus.
pub const SPI: [Place; 9] = [
    Unselected,
    Fall,
    Rise,
    Selected,
    Clocked,
    Held,
    SelectedAtPowerOn,
    Asleep,
    UnknownCode,
];
pub const I2C: [Place; 8] = [
    StartAtRest,
    StopAtRest,
    Rest,
    StartAgain,
    Stop,
    Between,
    OtherWord,
    AfterHigh,
];

impl Place {
    /// Whether write protect is to stand still here.
    pub fn still(self) -> bool {
        !matches!(
            self,
            Unselected | Fall | Rise | StartAtRest | StopAtRest | Rest
        )
    }
}

/// A SPI part since power on.
pub struct Spi {
    part: &'static Part,
    sample: u8,
    /// Why the part is deaf in this selection, if its code is not the reason.
    deaf: Option<Place>,
    /// The counted rises of this selection.
    bits: Vec<bool>,
}

impl Spi {
    pub fn on(part: &'static Part, sample: u8) -> Spi {
        Spi {
            part,
            sample,
            deaf: Some(SelectedAtPowerOn),
            bits: Vec::new(),
        }
    }

    pub fn place(&mut self, new: u8) -> Place {
        use spi_pin::{CS, HOLD, SCK, SI};
        let old = std::mem::replace(&mut self.sample, new);
        let clocked = (old ^ new) & SCK != 0;
        match (old & CS != 0, new & CS != 0) {
            (true, true) => Unselected,
            (true, false) => Fall,
            (false, true) => {
                let slept = self.deaf.is_none() && self.code() == Some(0xb9);
                self.deaf = (slept && self.part.number == 1).then_some(Asleep);
                self.bits.clear();
                Rise
            }
            (false, false) => {
                let held = old & new & HOLD == 0;
                let place = self.within(held, clocked);
                if clocked && !held && new & SCK != 0 {
                    self.bits.push(new & SI != 0);
                }
                place
            }
        }
    }

    fn within(&self, held: bool, clocked: bool) -> Place {
        let lacks = |&code: &u8| self.part.op(code).is_none();
        match (self.deaf, self.code().filter(lacks)) {
            (Some(deaf), _) => deaf,
            (None, Some(_)) => UnknownCode,
            _ if held => Held,
            _ if clocked => Clocked,
            _ => Selected,
        }
    }

    fn code(&self) -> Option<u8> {
        self.bits.get(..8).map(number)
    }
}

/// An I2C part since power on.
pub struct I2c {
    part: &'static Part,
    pins: u32,
    sample: u8,
    line: bool,
    /// The line at the rises since START; None at rest.
    bits: Option<Vec<bool>>,
}

impl I2c {
    pub fn on(part: &'static Part, pins: u32, sample: u8) -> I2c {
        I2c {
            part,
            pins,
            sample,
            line: sample & i2c_pin::SDA != 0,
            bits: None,
        }
    }

    pub fn place(&mut self, new: u8, answer: u8) -> Place {
        use i2c_pin::{SCL, SDA};
        let old = std::mem::replace(&mut self.sample, new);
        let now = new & SDA != 0 && answer != LOW;
        let before = std::mem::replace(&mut self.line, now);
        let rest = self.bits.is_none();
        match (old & SCL != 0, new & SCL != 0, before, now) {
            (true, true, true, false) => {
                self.bits = Some(Vec::new());
                return if rest { StartAtRest } else { StartAgain };
            }
            (true, true, false, true) => {
                self.bits = None;
                return if rest { StopAtRest } else { Stop };
            }
            _ => {}
        }
        let place = self.bits.as_ref().map_or(Rest, |bits| self.between(bits));
        if let (Some(bits), true) = (&mut self.bits, old & SCL == 0 && new & SCL != 0) {
            bits.push(now);
        }
        place
    }

    fn between(&self, bits: &[bool]) -> Place {
        let Some(word) = bits.get(..8).map(number) else {
            return Between;
        };
        let pins = match self.part.number {
            3 => word >> 1 & 7,
            _ => word >> 2 & 3,
        };
        // Each ninth bit behind the word's is the master's, if it reads.
        let mut ninth = bits.iter().skip(17).step_by(9);
        if word >> 4 != 0xa || u32::from(pins) != self.pins {
            OtherWord
        } else if word & 1 != 0 && ninth.any(|&high| high) {
            AfterHigh
        } else {
            Between
        }
    }
}

fn number(bits: &[bool]) -> u8 {
    bits.iter().fold(0, |sum, &bit| sum << 1 | u8::from(bit))
}
