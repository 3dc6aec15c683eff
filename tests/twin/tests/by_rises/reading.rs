//! "Models and events" and "Numbers given back", with the numbers of ask 1, the flag of ask 2 and the
//! byte that waits of ask 6.

use crate::i2c::I2c;
use crate::part::{Part, PARTS};
use crate::spi::Spi;

/// "The answer is 0 (low), 1 (high) or 2 (nothing driven)."
pub const NOTHING: u8 = 2;

/// The rule that decided at a sample, for the tests to count; no rule looks at it.
#[derive(Clone, Copy, Debug, PartialEq, Eq, PartialOrd, Ord)]
pub enum Reached {
    /// A data byte on either bus.
    Stored,
    StoredRolledOver,
    /// A data byte of WRITE that is not stored.
    Protected,
    NotEnabled,
    /// A data byte that waited until CS# rises: stored, not held or held, or not stored.
    StoredAsCsRises,
    StoredAsCsRisesHeld,
    DroppedAsCsRises,
    /// A data byte waits on: a counted fall, or a rise that a hold keeps from counting.
    FallWaiting,
    HeldRiseWaiting,
    /// Power goes off before a data byte that waits is stored.
    WaitingLost,
    /// A data byte on I2C with WP 1.
    Dropped,
    /// A counted fall that shows a bit, or has none left to show.
    Read,
    ReadRolledOver,
    FastRead,
    FastReadRolledOver,
    Status,
    StatusRepeated,
    Identity,
    IdentityOver,
    /// An edge that a hold keeps from counting, and a bit that is shown again.
    HeldEdge,
    ShownAfterHold,
    /// A counted rise without effect: after SLEEP, or with CS# 0 since power on.
    RiseAsleep,
    RiseSincePowerOn,
    /// CS# rises.
    Wren,
    Wrdi,
    Sleep,
    Wake,
    WriteEnd,
    Wrsr,
    WrsrLocked,
    WrsrNotEnabled,
    LackedCode,
    /// START or STOP within a transfer.
    StartAgain,
    Stop,
    /// The ninth rise of a word or of an address byte.
    OtherWord,
    AddressSent,
    ReadUnused,
    ReadUsed,
    ReadFromZero,
    ReadOverBorder,
    A16Replaced,
    A16ReplacedUsed,
    A16ReplacedAtBorder,
    /// The ninth rise of a byte that is read.
    ReadOn,
    ReadOnRolledOver,
    ReadEnded,
    /// The part pulls.
    WordAcknowledged,
    ByteAcknowledged,
    ZeroSent,
}

/// What a sample brings about besides the answer.
#[derive(Clone, Copy, Default)]
pub struct Step {
    pub flag: bool,
    /// The address of a byte that was stored.
    pub stored: Option<usize>,
    /// Two where a byte that waited comes before the end of its selection.
    pub reached: [Option<Reached>; 2],
}

impl Step {
    pub fn at(reached: Reached) -> Step {
        Step::when(true, reached)
    }

    pub fn when(holds: bool, reached: Reached) -> Step {
        Step {
            reached: [holds.then_some(reached), None],
            ..Step::default()
        }
    }

    /// The same with what a byte that waited came to before it.
    pub fn after(self, last: Step) -> Step {
        Step {
            stored: last.stored,
            reached: [last.reached[0], self.reached[0]],
            ..self
        }
    }

    pub fn stored(address: usize, rolled: bool) -> Step {
        Step {
            stored: Some(address),
            ..Step::at(if rolled {
                Reached::StoredRolledOver
            } else {
                Reached::Stored
            })
        }
    }
}

/// What an event gives back.
pub struct Given {
    pub number: u8,
    pub answer: u8,
    pub step: Step,
}

enum Power {
    Off,
    Spi(Spi),
    I2c(I2c),
}

/// A model of a part. The memory is lent and has the part's size.
pub struct Reading {
    /// As in the table.
    pub number: u32,
    pub pins: u32,
    part: &'static Part,
    /// SRWD BP1 BP0 while there is no power.
    saved: u8,
    power: Power,
}

impl Reading {
    /// "Refused making gives its number and the unpowered model of part 0 with zero pins and bits."
    pub fn make(number: u32, pins: u32, bits: u32) -> (u8, Reading) {
        let part = PARTS.get(number as usize);
        let made = part.filter(|part| pins <= part.most().0 && bits <= part.most().1);
        let Some(part) = made else {
            return (1, Reading::make(0, 0, 0).1);
        };
        let reading = Reading {
            number,
            pins,
            part,
            saved: bits as u8,
            power: Power::Off,
        };
        (0, reading)
    }

    pub fn size(&self) -> usize {
        self.part.size()
    }

    pub fn powered(&self) -> bool {
        !matches!(self.power, Power::Off)
    }

    /// SRWD BP1 BP0 as they stand.
    pub fn bits(&self) -> u8 {
        match &self.power {
            Power::Spi(spi) => spi.bits,
            Power::Off | Power::I2c(_) => self.saved,
        }
    }

    /// "Status bits are saved over power loss" or "lost". Without power a cut "changes nothing".
    pub fn bits_after_cut(&self) -> u8 {
        match (&self.power, self.part) {
            (Power::Spi(_), Part::Spi(part)) if !part.keeps_bits => 0,
            _ => self.bits(),
        }
    }

    /// The data byte that waits and its address, if one does.
    pub fn waiting(&self) -> Option<(usize, u8)> {
        match &self.power {
            Power::Spi(spi) => spi.waiting(),
            Power::Off | Power::I2c(_) => None,
        }
    }

    /// The present answer.
    pub fn answer(&self) -> u8 {
        match &self.power {
            Power::Off => NOTHING,
            Power::Spi(spi) => spi.answer(),
            Power::I2c(i2c) => i2c.answer(),
        }
    }

    /// "A single event is read from the front of its bytes; bytes after it are ignored." "A refused
    /// event gives its number, answer 2, the given state; memory is untouched."
    pub fn event(&mut self, bytes: &[u8], memory: &mut [u8]) -> Given {
        let number = self.refused(bytes);
        if number != 0 {
            return Given {
                number,
                answer: NOTHING,
                step: Step::default(),
            };
        }
        let step = self.accepted(bytes, memory);
        let answer = self.answer();
        Given {
            number,
            answer,
            step,
        }
    }

    /// "Tested in this order; the first that holds is given": 4, 5, 6, then "10 start address, 11
    /// expected value, both at the place of 6 in the order, after 6", 7, 8, 9. Else 0.
    fn refused(&self, bytes: &[u8]) -> u8 {
        // "or a single event is empty"
        let Some(&kind) = bytes.first() else { return 5 };
        let (length, most, known) = match (kind, self.part) {
            (1, Part::Spi(_)) => (2, 31, true),
            (2, Part::I2c(_)) => (5, 7, true),
            (3, _) => (1, 0, true),
            (4, Part::Spi(_)) => (2, 31, true),
            (4, Part::I2c(_)) => (2, 7, true),
            (5, _) => (2, 2, true),
            _ => (0, 0, false),
        };
        if !known {
            return 4;
        }
        let Some(body) = bytes.get(1..length) else {
            return 5;
        };
        match (kind, self.powered()) {
            (1 | 2 | 4, _) if body[0] > most => 6,
            (2, _) if start_address(body) >= self.size() => 10,
            (5, _) if body[0] > most => 11,
            (3..=5, false) => 7,
            (1 | 2, true) => 8,
            (5, true) if body[0] != self.answer() => 9,
            _ => 0,
        }
    }

    /// An event that no number refuses. "Power on and power off answer 2." The flag is "clear on a
    /// refusal or a power event"; an expected answer returns "with the state unchanged".
    fn accepted(&mut self, bytes: &[u8], memory: &mut [u8]) -> Step {
        match (bytes[0], &mut self.power, self.part) {
            (1, _, Part::Spi(part)) => {
                self.power = Power::Spi(Spi::power_on(part, self.saved, bytes[1]));
            }
            (2, _, Part::I2c(part)) => {
                let start = start_address(&bytes[1..]);
                self.power = Power::I2c(I2c::power_on(part, self.pins as u8, bytes[1], start));
            }
            (3, ..) => {
                let lost = matches!(&self.power, Power::Spi(spi) if spi.would_lose());
                self.saved = self.bits_after_cut();
                self.power = Power::Off;
                return Step::when(lost, Reached::WaitingLost);
            }
            (4, Power::Spi(spi), _) => return spi.sample(bytes[1], memory),
            (4, Power::I2c(i2c), _) => return i2c.sample(bytes[1], memory),
            _ => {}
        }
        Step::default()
    }
}

/// "sample, start address in three bytes, most significant first".
fn start_address(body: &[u8]) -> usize {
    let byte = |at: usize| usize::from(body[at]);
    byte(1) << 16 | byte(2) << 8 | byte(3)
}
