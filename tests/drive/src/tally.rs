//! What many compared traces of a part amount to, so that nobody takes refusals for agreement.

use crate::byte_call::BytesAgreed;
use crate::call::Agreed;
use std::fmt;
use twin::part::Wires;
use twin::trace::events;
use twin::Part;

#[derive(Clone, Debug, Default)]
pub struct Tally {
    pub traces: u64,
    /// Events in the traces, also those after a refused one, which are not run.
    pub events: u64,
    pub accepted: u64,
    /// Accepted events that stored a byte.
    pub stored: u64,
    /// Traces with an accepted event that has the flag.
    pub flagged: u64,
    /// Traces by the number that ended them; 0 for those that ran to their end.
    pub numbers: [u64; 12],
}

impl Tally {
    pub fn add(&mut self, trace: &[u8], agreed: &Agreed) {
        self.traces += 1;
        self.events += events(trace).count() as u64;
        self.accepted += agreed.ran.count;
        self.stored += agreed.stored;
        self.flagged += u64::from(agreed.flagged.is_some());
        self.numbers[usize::from(agreed.ran.number)] += 1;
    }

    pub fn join(&mut self, other: &Tally) {
        self.traces += other.traces;
        self.events += other.events;
        self.accepted += other.accepted;
        self.stored += other.stored;
        self.flagged += other.flagged;
        for (sum, more) in self.numbers.iter_mut().zip(other.numbers) {
            *sum += more;
        }
    }
}

impl fmt::Display for Tally {
    fn fmt(&self, to: &mut fmt::Formatter<'_>) -> fmt::Result {
        let share = 100.0 * self.accepted as f64 / self.events.max(1) as f64;
        write!(to, "{:>9} {:>12} ", self.traces, self.accepted)?;
        write!(to, "{share:>6.1}% {:>9} {:>8}  ", self.stored, self.flagged)?;
        let refused = REFUSALS.map(|number| self.numbers[number]);
        write!(to, " {:>8}{}", self.numbers[0], columns(refused))
    }
}

/// The numbers that can refuse an event.
const REFUSALS: [usize; 8] = [4, 5, 6, 7, 8, 9, 10, 11];

/// Those of a part: a start address, and so 10, is on I2C alone.
pub fn refusals(part: &Part) -> impl Iterator<Item = usize> + '_ {
    let here = |&number: &usize| number != 10 || part.wires == Wires::I2c;
    REFUSALS.into_iter().filter(here)
}

/// The heads of the columns.
pub fn head() -> String {
    let left = "   traces     accepted   share    stored  flagged   ended: 0";
    left.to_string() + &columns(REFUSALS)
}

fn columns(cells: impl IntoIterator<Item = impl fmt::Display>) -> String {
    let cells = cells.into_iter();
    cells.map(|cell| format!(" {cell:>8}")).collect()
}

/// What many compared selections as bytes amount to.
#[derive(Clone, Debug, Default)]
pub struct ByteTally {
    pub selections: u64,
    /// Bytes that came back driven.
    pub driven: u64,
    /// Bytes that the selections stored.
    pub stored: u64,
    /// Selections by their number.
    pub numbers: [u64; 14],
    /// Selections by the number that ended the trace before.
    pub before: [u64; 12],
}

impl ByteTally {
    pub fn add(&mut self, agreed: &BytesAgreed) {
        self.selections += 1;
        self.driven += agreed.selected.count;
        self.stored += agreed.stored;
        self.numbers[usize::from(agreed.selected.number)] += 1;
        self.before[usize::from(agreed.before.number)] += 1;
    }
}

impl fmt::Display for ByteTally {
    fn fmt(&self, to: &mut fmt::Formatter<'_>) -> fmt::Result {
        let taken = self.numbers[0];
        write!(to, "{} selections as bytes compared, ", self.selections)?;
        write!(to, "{taken} of them taken: {} bytes ", self.driven)?;
        write!(to, "driven, {} stored", self.stored)
    }
}
