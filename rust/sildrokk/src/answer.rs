//! What a part does to its output.

use std::fmt;

/// The answer of an event: what SO shows, or what the part does to SDA.
///
/// `answer as u8` is the number that a trace has for it; `Display` is the letter that answers have in a
/// text, 0, 1 or Z.
#[derive(Clone, Copy, Debug, PartialEq, Eq, Hash)]
pub enum Answer {
    /// Driven low. An I2C part pulls SDA.
    Low = 0,
    /// Driven high. No I2C part does that.
    High = 1,
    /// Nothing is driven.
    Nothing = 2,
}

impl Answer {
    /// The answer that has the number in a trace, if any has.
    pub fn of_number(number: u8) -> Option<Answer> {
        match number {
            0 => Some(Answer::Low),
            1 => Some(Answer::High),
            2 => Some(Answer::Nothing),
            _ => None,
        }
    }

    /// 0, 1 or Z.
    pub fn letter(self) -> char {
        match self {
            Answer::Low => '0',
            Answer::High => '1',
            Answer::Nothing => 'Z',
        }
    }
}

impl fmt::Display for Answer {
    fn fmt(&self, to: &mut fmt::Formatter<'_>) -> fmt::Result {
        fmt::Display::fmt(&self.letter(), to)
    }
}
