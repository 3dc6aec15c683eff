//! The five parts: what a host must know of each before it makes one.

use std::error::Error;
use std::fmt;
use std::str::FromStr;

/// A bus.
#[derive(Clone, Copy, Debug, PartialEq, Eq, Hash)]
pub enum Bus {
    Spi,
    I2c,
}

impl fmt::Display for Bus {
    fn fmt(&self, to: &mut fmt::Formatter<'_>) -> fmt::Result {
        to.pad(match self {
            Bus::Spi => "SPI",
            Bus::I2c => "I2C",
        })
    }
}

/// One of the five parts. `part as u32` is its number.
///
/// ```
/// use sildrokk::{Bus, Part};
///
/// let part: Part = "MR44V064B".parse().unwrap();
/// assert_eq!(part, Part::Mr44v064b);
/// assert_eq!(Part::of_number(3), Some(part));
/// assert_eq!((part.bus(), part.size()), (Bus::I2c, 8192));
/// ```
#[derive(Clone, Copy, Debug, PartialEq, Eq, Hash, PartialOrd, Ord)]
pub enum Part {
    Mr45v032a = 0,
    Mr45v100a = 1,
    Mr45v200b = 2,
    Mr44v064b = 3,
    Ms85rc1mty = 4,
}

impl Part {
    /// Every part, by its number.
    pub const ALL: [Part; 5] = [
        Part::Mr45v032a,
        Part::Mr45v100a,
        Part::Mr45v200b,
        Part::Mr44v064b,
        Part::Ms85rc1mty,
    ];

    /// The number by which the C calls and the papers know it.
    pub fn number(self) -> u32 {
        self as u32
    }

    /// The part that has the number, if any has.
    pub fn of_number(number: u32) -> Option<Part> {
        Part::ALL.into_iter().find(|it| it.number() == number)
    }

    /// Its maker's name for it.
    pub fn name(self) -> &'static str {
        match self {
            Part::Mr45v032a => "MR45V032A",
            Part::Mr45v100a => "MR45V100A",
            Part::Mr45v200b => "MR45V200B",
            Part::Mr44v064b => "MR44V064B",
            Part::Ms85rc1mty => "MS85RC1MTY",
        }
    }

    pub fn bus(self) -> Bus {
        match self {
            Part::Mr45v032a | Part::Mr45v100a | Part::Mr45v200b => Bus::Spi,
            Part::Mr44v064b | Part::Ms85rc1mty => Bus::I2c,
        }
    }

    /// How many bytes of memory it has.
    pub fn size(self) -> usize {
        match self {
            Part::Mr45v032a => 4_096,
            Part::Mr44v064b => 8_192,
            Part::Mr45v100a | Part::Ms85rc1mty => 131_072,
            Part::Mr45v200b => 262_144,
        }
    }

    /// The largest number that its address pins can be set to, 0 if it has none: A2 A1 A0 on MR44V064B,
    /// A2 A1 on MS85RC1MTY.
    pub fn max_pins(self) -> u32 {
        match self {
            Part::Mr44v064b => 7,
            Part::Ms85rc1mty => 3,
            Part::Mr45v032a | Part::Mr45v100a | Part::Mr45v200b => 0,
        }
    }

    /// The largest number that SRWD BP1 BP0 make in a part that keeps them without power, else 0.
    pub fn max_bits(self) -> u32 {
        match self {
            Part::Mr45v100a | Part::Mr45v200b => 7,
            Part::Mr45v032a | Part::Mr44v064b | Part::Ms85rc1mty => 0,
        }
    }
}

/// A part's name.
impl fmt::Display for Part {
    fn fmt(&self, to: &mut fmt::Formatter<'_>) -> fmt::Result {
        to.pad(self.name())
    }
}

/// A word that is neither the number nor the name of a part.
#[derive(Clone, Copy, Debug, PartialEq, Eq)]
pub struct NoSuchPart;

impl fmt::Display for NoSuchPart {
    fn fmt(&self, to: &mut fmt::Formatter<'_>) -> fmt::Result {
        to.write_str("no such part; there are")?;
        for (comma, part) in ["", ",", ",", ",", ","].into_iter().zip(Part::ALL) {
            write!(to, "{comma} {} ({part})", part.number())?;
        }
        Ok(())
    }
}

impl Error for NoSuchPart {}

/// From its number or its name, in small letters or large ones.
impl FromStr for Part {
    type Err = NoSuchPart;

    fn from_str(word: &str) -> Result<Part, NoSuchPart> {
        let named = |part: &Part| word.eq_ignore_ascii_case(part.name());
        let numbered = |part: &Part| word == part.number().to_string();
        let found = Part::ALL.into_iter().find(|it| named(it) || numbered(it));
        found.ok_or(NoSuchPart)
    }
}
