//! "I2C rules" in document 01's own terms: the line at each rise of SCL since START, nine to a byte.
//! Its sentences stand beside the lines that they are kept by.

use crate::part::{number, I2cPart};
use crate::reading::{Reached, Step, NOTHING};

// "I2C sample: bit 0 SCL, 1 SDA as others drive it, 2 WP".
const SCL: u8 = 1 << 0;
const SDA: u8 = 1 << 1;
const WP: u8 = 1 << 2;

/// "START awaits a word".
#[derive(Default)]
struct Transfer {
    /// The line at each rise of SCL; the word is the first byte of nine.
    lines: Vec<bool>,
    /// Where a read word begins.
    read_from: usize,
}

impl Transfer {
    /// The eight bits of byte number k; the word is number 0.
    fn byte(&self, k: usize) -> usize {
        number(&self.lines[9 * k..9 * k + 8])
    }

    /// "A master's low at the ninth rise asks for the next byte; high ends the transfer." Whether
    /// one of the first so many bytes that were read ended it.
    fn ended(&self, bytes: usize) -> bool {
        (1..=bytes).any(|k| self.lines[9 * k + 8])
    }
}

/// The part's own word.
struct Word {
    a16: usize,
    read: bool,
}

/// A part from power on to power off.
pub struct I2c {
    part: &'static I2cPart,
    pins: usize,
    /// The sample before.
    old: u8,
    pulls: bool,
    /// "The address buffer holds n and whether n was used."
    n: usize,
    used: bool,
    /// From START to STOP; None where the part rests.
    transfer: Option<Transfer>,
}

impl I2c {
    /// "At power on the part rests." The buffer becomes "n, unused" "at power on with the start
    /// address".
    pub fn power_on(part: &'static I2cPart, pins: u8, sample: u8, start: usize) -> I2c {
        I2c {
            part,
            pins: usize::from(pins),
            old: sample,
            pulls: false,
            n: start,
            used: false,
            transfer: None,
        }
    }

    /// "I2C never answers 1."
    pub fn answer(&self) -> u8 {
        if self.pulls {
            0
        } else {
            NOTHING
        }
    }

    pub fn sample(&mut self, new: u8, memory: &mut [u8]) -> Step {
        let old = std::mem::replace(&mut self.old, new);
        // "a sample's WP level differs from that of the sample before and .. the I2C part lies
        // between START and STOP in the state before"
        let flag = old & WP != new & WP && self.transfer.is_some();
        let mut step = match (old & SCL != 0, new & SCL != 0) {
            (true, true) => self.start_or_stop(self.line(old), self.line(new)),
            (false, true) => self.rise(new, memory),
            (true, false) => self.fall(memory),
            (false, false) => Step::default(),
        };
        step.flag = flag;
        step
    }

    /// "The line is low if the sample's SDA is 0 or the part pulls."
    fn line(&self, sample: u8) -> bool {
        !(sample & SDA == 0 || self.pulls)
    }

    /// "START: SCL 1 in both samples, line 1 to 0. STOP: line 0 to 1. Both release the line and drop
    /// unfinished bits; START awaits a word, STOP rests."
    fn start_or_stop(&mut self, before: bool, now: bool) -> Step {
        if before == now {
            return Step::default();
        }
        let open = self.transfer.take().is_some();
        self.pulls = false;
        if before {
            self.transfer = Some(Transfer::default());
            Step::when(open, Reached::StartAgain)
        } else {
            Step::when(open, Reached::Stop)
        }
    }

    /// "The word is 1010, then A2 A1 A0 (part 3) or A2 A1 A16 (part 4), then R/W." None for another
    /// word: it "gets no acknowledge and the part waits for START or STOP".
    fn word(&self, transfer: &Transfer) -> Option<Word> {
        let word = transfer.byte(0);
        let (own, a16) = if self.part.a16 {
            (0b101_0000 + 2 * self.pins, word >> 1 & 1)
        } else {
            (0b101_0000 + self.pins, 0)
        };
        (word >> 1 == own + a16).then_some(Word {
            a16,
            read: word & 1 == 1,
        })
    }

    /// "Bits enter on SCL rises." The bit is the line's level.
    fn rise(&mut self, new: u8, memory: &mut [u8]) -> Step {
        let line = self.line(new);
        let Some(mut transfer) = self.transfer.take() else {
            return Step::default();
        };
        transfer.lines.push(line);
        let step = if transfer.lines.len().is_multiple_of(9) {
            self.ninth_rise(&mut transfer, new & WP != 0, memory)
        } else {
            Step::default()
        };
        self.transfer = Some(transfer);
        step
    }

    /// The ninth rise of the last byte of the transfer.
    fn ninth_rise(&mut self, transfer: &mut Transfer, wp: bool, memory: &mut [u8]) -> Step {
        let k = transfer.lines.len() / 9 - 1;
        match (self.word(transfer), k) {
            (None, _) => Step::when(k == 0, Reached::OtherWord),
            (Some(word), 0) if word.read => {
                let (from, reached) = self.read_from(word.a16);
                transfer.read_from = from;
                Step::at(reached)
            }
            (Some(word), _) if word.read => self.byte_read(transfer, k),
            // "After a write word: two address bytes, then data, all acknowledged."
            (Some(_), 0 | 1) => Step::default(),
            (Some(word), 2) => {
                // It becomes "n, unused" "at the second address byte's ninth rise".
                (self.n, self.used) = (self.sent(transfer, word.a16), false);
                Step::at(Reached::AddressSent)
            }
            (Some(word), _) => {
                let (address, rolled) = self.up(self.sent(transfer, word.a16), k - 3);
                self.use_byte(address);
                // "A data byte is stored at its ninth rise if WP is 0 in that sample; with WP 1 it is
                // acknowledged and dropped (house)."
                if wp {
                    return Step::at(Reached::Dropped);
                }
                memory[address] = transfer.byte(k) as u8;
                Step::stored(address, rolled)
            }
        }
    }

    /// The address of a write transfer: "A16 in the word, two bytes", "modulo the size".
    fn sent(&self, transfer: &Transfer, a16: usize) -> usize {
        (a16 << 16 | transfer.byte(1) << 8 | transfer.byte(2)) % self.part.size
    }

    /// "The address goes up and rolls over." Whether the roll-over is behind it.
    fn up(&self, from: usize, by: usize) -> (usize, bool) {
        ((from + by) % self.part.size, from + by >= self.part.size)
    }

    /// "A read word begins at n if unused, else at n + 1, rolled over. For part 4, bit 16 of n is
    /// first replaced by A16 of the word (002)."
    fn read_from(&self, a16: usize) -> (usize, Reached) {
        let n = if self.part.a16 {
            self.n % 0x10000 + a16 * 0x10000
        } else {
            self.n
        };
        let (from, rolled) = self.up(n, usize::from(self.used));
        let reached = match (n != self.n, self.used) {
            (true, false) => Reached::A16Replaced,
            (true, true) if from % 0x10000 == 0 => Reached::A16ReplacedAtBorder,
            (true, true) => Reached::A16ReplacedUsed,
            (false, true) if rolled => Reached::ReadFromZero,
            (false, true) if from == 0x10000 => Reached::ReadOverBorder,
            (false, true) => Reached::ReadUsed,
            (false, false) => Reached::ReadUnused,
        };
        (from, reached)
    }

    /// The address of byte number k that is read; the word is number 0.
    fn read_address(&self, transfer: &Transfer, k: usize) -> (usize, bool) {
        self.up(transfer.read_from, k - 1)
    }

    /// A byte was read, if no high came before it.
    fn byte_read(&mut self, transfer: &Transfer, k: usize) -> Step {
        if transfer.ended(k - 1) {
            return Step::default();
        }
        let (address, rolled) = self.read_address(transfer, k);
        self.use_byte(address);
        match (transfer.ended(k), rolled) {
            (true, _) => Step::at(Reached::ReadEnded),
            (false, true) => Step::at(Reached::ReadOnRolledOver),
            (false, false) => Step::at(Reached::ReadOn),
        }
    }

    /// "A data byte stored, dropped or read makes it 'its address, used' at the ninth rise."
    fn use_byte(&mut self, address: usize) {
        (self.n, self.used) = (address, true);
    }

    /// "The part's pull changes on SCL falls."
    fn fall(&mut self, memory: &[u8]) -> Step {
        let pull = self
            .transfer
            .as_ref()
            .and_then(|open| self.pull(open, memory));
        self.pulls = pull.is_some();
        pull.map_or(Step::default(), Step::at)
    }

    /// Why the part pulls after a fall, if it does. "The ninth clock acknowledges."
    fn pull(&self, transfer: &Transfer, memory: &[u8]) -> Option<Reached> {
        let (k, clocks) = (transfer.lines.len() / 9, transfer.lines.len() % 9);
        if k == 0 {
            let own = clocks == 8 && self.word(transfer).is_some();
            return own.then_some(Reached::WordAcknowledged);
        }
        let word = self.word(transfer)?;
        if !word.read {
            return (clocks == 8).then_some(Reached::ByteAcknowledged);
        }
        if clocks == 8 || transfer.ended(k - 1) {
            return None;
        }
        let (address, _) = self.read_address(transfer, k);
        let low = memory[address] >> (7 - clocks) & 1 == 0;
        low.then_some(Reached::ZeroSent)
    }
}
