//! Whose turn it is on an I2C bus, told by the wires alone: who sends the next bit, and whether it is
//! the part.

use super::map::Seen;
use sildrokk::trace::i2c;
use sildrokk::{Answer, Part};

/// A bus as it is followed.
pub struct Turns {
    part: Part,
    pins: u32,
    transfer: Option<Transfer>,
    /// What the part must answer while SCL is high, if the wires tell it.
    expected: Option<Answer>,
}

/// A transfer from its START on, in the byte under way.
struct Transfer {
    /// The bits that are in, and how many: at 8 the acknowledge comes.
    byte: u8,
    count: u8,
    /// The byte is the device address word.
    word: bool,
    /// The part sends the bytes, and the host acknowledges them.
    reading: bool,
    ours: bool,
}

impl Turns {
    pub fn new(part: Part, pins: u32) -> Turns {
        Turns {
            part,
            pins,
            transfer: None,
            expected: None,
        }
    }

    /// The next sample: what the part must have answered up to a fall of SCL. It changes its pull at
    /// falls alone, so this is the answer since the rise; and only at the fall is it known that SDA, high
    /// or low, was a bit and no START or STOP, of which the host alone pulls SDA.
    pub fn sample(&mut self, last: Seen, seen: Seen) -> Option<Answer> {
        let [scl_before, scl] = [last, seen].map(|it| it.sample & i2c::SCL != 0);
        let [sda_before, sda] = [last, seen].map(|it| it.sample & i2c::SDA != 0 && it.output);
        match (scl_before, scl) {
            (false, true) => self.expected = self.rise(sda),
            (true, false) => return self.expected.take(),
            (true, true) if sda_before && !sda => self.start(),
            (true, true) if sda && !sda_before => self.stop(),
            _ => {}
        }
        None
    }

    fn start(&mut self) {
        self.expected = None;
        self.transfer = Some(Transfer {
            byte: 0,
            count: 0,
            word: true,
            reading: false,
            ours: false,
        });
    }

    /// STOP, or a power off.
    pub fn stop(&mut self) {
        self.expected = None;
        self.transfer = None;
    }

    /// What the part must answer at a rise of SCL: nothing where SDA is high, and a pull where it is low
    /// and the bit is the part's.
    fn rise(&mut self, sda: bool) -> Option<Answer> {
        match (sda, self.bit(sda)) {
            (true, _) => Some(Answer::Nothing),
            (false, true) => Some(Answer::Low),
            (false, false) => None,
        }
    }

    /// One more bit: whether the part is the one who sends it.
    fn bit(&mut self, sda: bool) -> bool {
        let Some(transfer) = &mut self.transfer else {
            return false;
        };
        if transfer.count < 8 {
            transfer.byte = transfer.byte << 1 | u8::from(sda);
            transfer.count += 1;
            return transfer.ours && transfer.reading;
        }
        let parts = if transfer.word {
            transfer.ours = is_word(self.part, self.pins, transfer.byte);
            transfer.ours
        } else {
            transfer.ours && !transfer.reading
        };
        if sda {
            // not acknowledged: nobody of this transfer sends any more
            self.transfer = None;
        } else {
            transfer.reading = if transfer.word {
                transfer.byte & 1 != 0
            } else {
                transfer.reading
            };
            (transfer.word, transfer.byte, transfer.count) = (false, 0, 0);
        }
        parts
    }
}

/// Whether a device address word is the part's: 1010, then A2 A1 A0, or A2 A1 and A16, then read or write.
fn is_word(part: Part, pins: u32, word: u8) -> bool {
    let address = u32::from(word) >> 1;
    match part {
        Part::Ms85rc1mty => address >> 1 == 0b1010 << 2 | pins,
        _ => address == 0b1010 << 3 | pins,
    }
}
