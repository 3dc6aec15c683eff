//! Why a call was refused: the papers' numbers and what each means.

use std::error::Error;
use std::fmt;

/// A refusal. A refused call gives the state back as it was, drives nothing and changes no byte; of a
/// run the events before the refused one stand.
///
/// `refusal as u8` is its number, `Display` says it in words.
///
/// ```
/// use sildrokk::{Model, Part, Refusal};
///
/// let refusal = Model::new(Part::Mr45v032a, 1, 0).unwrap_err();
/// assert_eq!(refusal, Refusal::Making);
/// assert_eq!(refusal.number(), 1);
/// assert_eq!(refusal.to_string(), "no such part, or address pins or saved bits that it cannot have");
/// ```
#[derive(Clone, Copy, Debug, PartialEq, Eq, Hash)]
#[non_exhaustive]
pub enum Refusal {
    /// The part cannot have these address pins or saved bits.
    Making = 1,
    /// The state is not the image of a state in its ranges.
    State = 2,
    /// The memory is longer or shorter than the part's.
    MemoryLength = 3,
    /// No such kind of event, or the power on of the other bus; of a selection, that the part is on I2C.
    Kind = 4,
    /// The bytes of the event are not all there.
    Incomplete = 5,
    /// The sample has bits above the part's wires.
    Sample = 6,
    /// A power off, a sample or an expected answer without power.
    Unpowered = 7,
    /// A power on, under power.
    Powered = 8,
    /// The part answers something else than expected.
    OtherAnswer = 9,
    /// The start address is not below the part's size.
    StartAddress = 10,
    /// The expected answer is above 2.
    ExpectedAnswer = 11,
    /// A selection without power, or where CS# was not 1 in the last sample.
    NotSelectable = 12,
    /// The output of a selection is longer or shorter than its input.
    OutputLength = 13,
}

impl Refusal {
    /// Every refusal, by its number.
    pub const ALL: [Refusal; 13] = [
        Refusal::Making,
        Refusal::State,
        Refusal::MemoryLength,
        Refusal::Kind,
        Refusal::Incomplete,
        Refusal::Sample,
        Refusal::Unpowered,
        Refusal::Powered,
        Refusal::OtherAnswer,
        Refusal::StartAddress,
        Refusal::ExpectedAnswer,
        Refusal::NotSelectable,
        Refusal::OutputLength,
    ];

    /// The papers' number.
    pub fn number(self) -> u8 {
        self as u8
    }

    /// The refusal that has the number, if any has.
    pub fn of_number(number: u8) -> Option<Refusal> {
        Refusal::ALL.into_iter().find(|it| it.number() == number)
    }

    /// What a call returned: 0, or the number of a refusal.
    ///
    /// Panics if no refusal has the number: then the archive is not the one that this crate is for.
    pub(crate) fn returned(number: u8) -> Result<(), Refusal> {
        match (number, Refusal::of_number(number)) {
            (0, _) => Ok(()),
            (_, Some(refusal)) => Err(refusal),
            (_, None) => {
                panic!("libsildrokk.a gave number {number}, which this crate does not know")
            }
        }
    }
}

impl fmt::Display for Refusal {
    fn fmt(&self, to: &mut fmt::Formatter<'_>) -> fmt::Result {
        to.write_str(match self {
            Refusal::Making => "no such part, or address pins or saved bits that it cannot have",
            Refusal::State => "the state is not the image of a state in its ranges",
            Refusal::MemoryLength => "the memory is longer or shorter than the part's",
            Refusal::Kind => "no such kind of event, or the part is on the other bus",
            Refusal::Incomplete => "the bytes of the event are not all there",
            Refusal::Sample => "the sample has bits above the part's wires",
            Refusal::Unpowered => "the part has no power",
            Refusal::Powered => "a power on, and the part has power already",
            Refusal::OtherAnswer => "the part answers something else than expected",
            Refusal::StartAddress => "the start address is not below the part's size",
            Refusal::ExpectedAnswer => "the expected answer is above 2",
            Refusal::NotSelectable => "a selection without power, or while CS# is low",
            Refusal::OutputLength => "the output is longer or shorter than the input",
        })
    }
}

impl Error for Refusal {}
