//! What a line of the vectors tells of its run, besides the answers and the changed cells.

use crate::model::Ran;
use std::fmt::{Display, Formatter, Result};

/// The columns number, count and offset, and the flag's offset on lines that have this column.
#[derive(Clone, Copy, Debug, PartialEq, Eq)]
pub struct Figures {
    pub number: u8,
    pub count: u64,
    pub offset: u64,
    /// The last column of its line; None where the line ends without it.
    pub flag: Option<u64>,
}

impl Figures {
    /// Those of a run, with the flag's offset or without.
    pub fn of(ran: Ran, flagged: bool) -> Figures {
        Figures {
            number: ran.number,
            count: ran.count,
            offset: ran.offset,
            flag: flagged.then_some(ran.flag),
        }
    }

    /// Reads number, count and offset; the flag's offset is what comes behind the line's other
    /// columns, if anything does.
    pub(super) fn parse(first: [&str; 3], behind: &[&str]) -> Option<Figures> {
        let [number, count, offset] = first;
        let flag = match behind {
            [] => None,
            [flag] => Some(flag.parse().ok()?),
            _ => return None,
        };
        Some(Figures {
            number: number.parse().ok()?,
            count: count.parse().ok()?,
            offset: offset.parse().ok()?,
            flag,
        })
    }
}

/// Number, count and offset, which stand together.
impl Display for Figures {
    fn fmt(&self, to: &mut Formatter<'_>) -> Result {
        write!(to, "{} {} {}", self.number, self.count, self.offset)
    }
}
