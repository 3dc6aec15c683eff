//! "I2C rules": a part under power on the I2C bus.

use crate::event::Given;
use crate::part::i2c_pin::{SCL, SDA, WP};
use crate::part::Part;
use crate::{LOW, NOTHING};

/// What the part waits for.
#[derive(Clone, Copy, Debug, PartialEq, Eq)]
pub(crate) enum Phase {
    /// As at power on and after STOP.
    Rest,
    /// Between START and STOP too, but after another word or a master's high: the part ignores the
    /// bus.
    Deaf,
    /// A device address word.
    Word,
    /// The first address byte, and the second.
    High,
    Low,
    /// A data byte, which comes in or goes out.
    Data,
    Send,
}

impl Phase {
    /// Whether a byte comes in.
    fn takes(self) -> bool {
        matches!(self, Phase::Word | Phase::High | Phase::Low | Phase::Data)
    }
}

/// The byte under way since a START, nine clocks to each. A number that its phase has no use for is
/// 0, so that each state has one form.
#[derive(Clone, Debug, PartialEq, Eq)]
pub(crate) struct Span {
    pub phase: Phase,
    /// Clocks of the byte, 0 to 8.
    pub clocks: u8,
    /// The number that its bits make as they come in.
    pub byte: u8,
    /// Of Low the first address byte.
    pub high: u8,
    /// Of Data and Send where the byte stands, below the size; of High and Low A16 of the word in
    /// its place, which part 3 never has.
    pub address: u32,
}

/// A16 in its place.
pub(crate) const A16: u32 = 0x1_0000;

impl Span {
    /// At the start of a byte.
    fn at(phase: Phase, address: u32) -> Span {
        Span {
            phase,
            clocks: 0,
            byte: 0,
            high: 0,
            address,
        }
    }
}

/// An I2C part from power on to power off.
#[derive(Clone, Debug, PartialEq, Eq)]
pub struct I2c {
    pub(crate) part: &'static Part,
    pub(crate) pins: u8,
    pub(crate) old: u8,
    pub(crate) pull: bool,
    /// The address buffer: its address, and whether that has been used.
    pub(crate) n: u32,
    pub(crate) used: bool,
    pub(crate) span: Span,
}

impl I2c {
    /// The part comes up at rest, with the start address in its buffer, unused.
    pub fn power_on(part: &'static Part, pins: u8, sample: u8, start: u32) -> I2c {
        I2c {
            part,
            pins,
            old: sample,
            pull: false,
            n: start,
            used: false,
            span: Span::at(Phase::Rest, 0),
        }
    }

    pub fn answer(&self) -> u8 {
        if self.pull {
            LOW
        } else {
            NOTHING
        }
    }

    /// The next sample: START or STOP with SCL 1 in both, bits on rises, the pull on falls. WP is to
    /// stand still unless the part rested before.
    #[inline]
    pub(crate) fn sample(&mut self, new: u8, memory: &mut [u8]) -> Given {
        let old = std::mem::replace(&mut self.old, new);
        let flag = (old ^ new) & WP != 0 && self.span.phase != Phase::Rest;
        match (old & SCL != 0, new & SCL != 0) {
            (true, true) => match (self.line(old), self.line(new)) {
                (true, false) => self.start(),
                (false, true) => self.stop(),
                _ => {}
            },
            (false, true) => self.rise(new, memory),
            (true, false) => self.pull = self.pulls(memory),
            (false, false) => {}
        }
        Given {
            answer: self.answer(),
            flag,
        }
    }

    /// The line's level: high only if neither the others nor the part hold it low.
    fn line(&self, sample: u8) -> bool {
        sample & SDA != 0 && !self.pull
    }

    /// After START the part lets go of the line, forgets a byte under way and takes in a word.
    fn start(&mut self) {
        self.pull = false;
        self.span = Span::at(Phase::Word, 0);
    }

    /// After STOP the part lets go of the line, forgets a byte under way and rests.
    fn stop(&mut self) {
        self.pull = false;
        self.span = Span::at(Phase::Rest, 0);
    }

    /// A rise of SCL, with the line's level as its bit.
    #[inline]
    fn rise(&mut self, new: u8, memory: &mut [u8]) {
        let line = self.line(new);
        let span = &mut self.span;
        if span.clocks == 8 {
            self.ninth_rise(line, new & WP != 0, memory);
        } else if span.phase.takes() {
            span.clocks += 1;
            span.byte = span.byte << 1 | u8::from(line);
        } else if span.phase == Phase::Send {
            span.clocks += 1;
        }
    }

    /// The device address word: 1010, three bits (A2 A1 A0 on part 3, A2 A1 A16 on part 4), R/W. Its
    /// A16 in place, 0 on part 3, and whether it reads; None if it is not the part's.
    fn word(&self) -> Option<(u32, bool)> {
        let word = self.span.byte;
        let (pins, a16) = if self.part.number == 3 {
            (word >> 1 & 7, 0)
        } else {
            (word >> 2 & 3, word >> 1 & 1)
        };
        let own = word >> 4 == 0b1010 && pins == self.pins;
        own.then_some((u32::from(a16) * A16, word & 1 != 0))
    }

    /// What follows a word: address bytes, a byte sent from where the buffer says, or nothing.
    fn after_word(&self) -> Span {
        match self.word() {
            None => Span::at(Phase::Deaf, 0),
            Some((a16, false)) => Span::at(Phase::High, a16),
            Some((a16, true)) => Span::at(Phase::Send, self.read_from(a16)),
        }
    }

    /// The buffer's address if unused, else the next, which after the top is 0. On part 4 A16 of the
    /// word first takes the place of its bit 16; the buffer itself stays until a byte is read.
    fn read_from(&self, a16: u32) -> u32 {
        let n = if self.part.number == 4 {
            a16 | (self.n % A16)
        } else {
            self.n
        };
        self.part.wrap(u64::from(n) + u64::from(self.used)) as u32
    }

    /// The ninth rise of a byte.
    fn ninth_rise(&mut self, line: bool, wp: bool, memory: &mut [u8]) {
        let Span {
            phase,
            byte,
            high,
            address,
            ..
        } = self.span;
        self.span = match phase {
            Phase::Rest | Phase::Deaf => return,
            Phase::Word => self.after_word(),
            Phase::High => Span {
                high: byte,
                ..Span::at(Phase::Low, address)
            },
            Phase::Low => {
                let sent = address | u32::from(high) << 8 | u32::from(byte);
                self.n = self.part.wrap(u64::from(sent)) as u32;
                self.used = false;
                Span::at(Phase::Data, self.n)
            }
            Phase::Data => {
                if !wp {
                    memory[address as usize] = byte;
                }
                Span::at(Phase::Data, self.use_byte())
            }
            // With the line high here the master wants no more.
            Phase::Send => match (self.use_byte(), line) {
                (_, true) => Span::at(Phase::Deaf, 0),
                (next, false) => Span::at(Phase::Send, next),
            },
        };
    }

    /// The part's pull after a SCL fall: a 0 of a byte that it sends, or an acknowledge.
    #[inline]
    fn pulls(&self, memory: &[u8]) -> bool {
        let span = &self.span;
        if span.clocks < 8 {
            let bit = || memory[span.address as usize] >> (7 - span.clocks) & 1;
            return span.phase == Phase::Send && bit() == 0;
        }
        match span.phase {
            Phase::Rest | Phase::Deaf | Phase::Send => false,
            Phase::Word => self.word().is_some(),
            Phase::High | Phase::Low | Phase::Data => true,
        }
    }

    /// A data byte, whether stored, dropped or sent, leaves its address in the buffer, used. The next
    /// one's address is one up, and 0 behind the top.
    fn use_byte(&mut self) -> u32 {
        self.n = self.span.address;
        self.used = true;
        self.part.wrap(u64::from(self.n) + 1) as u32
    }
}
