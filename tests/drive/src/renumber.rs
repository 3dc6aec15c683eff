//! Vectors of document 01 with the numbers and offsets of ask 1. There a field out of range gave 6
//! and the offset of the kind byte; now its number and the offset of its first byte. Which field that
//! is, the trace's bytes tell.

use crate::field::{self, bad_field, BadField};
use std::fmt;
use twin::text::Line;
use twin::trace::after;
use twin::PARTS;

/// A text of vectors with what was changed in it.
#[derive(Debug, PartialEq, Eq)]
pub struct Renumbered {
    pub text: String,
    pub changes: Vec<Change>,
    /// Its vectors, changed or not.
    pub vectors: usize,
}

/// A changed line, counted from 1.
#[derive(Clone, Copy, Debug, PartialEq, Eq)]
pub struct Change {
    pub line: usize,
    pub old: Given,
    pub new: Given,
}

/// What a vector says of its refused event.
#[derive(Clone, Copy, Debug, PartialEq, Eq)]
pub struct Given {
    pub number: u8,
    pub offset: u64,
}

/// The columns of a vector that may change, of so many.
const NUMBER: usize = 4;
const OFFSET: usize = 6;
const COLUMNS: usize = 9;

/// Renumbers a text; or a line that cannot be, and why. Whatever is not of a bad field stays as it
/// is, and so does what was renumbered before.
pub fn renumbered(text: &str) -> Result<Renumbered, String> {
    let mut changes = Vec::new();
    let mut vectors = 0;
    let mut rows = Vec::new();
    for (line, row) in (1..).zip(text.split('\n')) {
        if row.is_empty() || row.starts_with('#') {
            rows.push(row.to_string());
            continue;
        }
        vectors += 1;
        let (old, new) = given(row).map_err(|why| format!("line {line}: {why}"))?;
        if old != new {
            changes.push(Change { line, old, new });
        }
        rows.push(with(row, new));
    }
    Ok(Renumbered {
        text: rows.join("\n"),
        changes,
        vectors,
    })
}

/// What a vector says, and what it is to say.
fn given(row: &str) -> Result<(Given, Given), String> {
    let line = Line::parse(row).filter(|_| row.split(' ').count() == COLUMNS);
    let line = line.ok_or("not a vector")?;
    let old = Given {
        number: line.ran.number,
        offset: line.ran.offset,
    };
    if !field::NUMBERS.contains(&old.number) {
        return Ok((old, old));
    }
    let (kind_byte, bad) = refused(&line)?;
    let new = Given {
        number: bad.number,
        offset: kind_byte + bad.place as u64,
    };
    let before = Given {
        number: 6,
        offset: kind_byte,
    };
    if old == before || old == new {
        Ok((old, new))
    } else {
        Err(format!("{old}, which is neither {before} nor {new}"))
    }
}

/// The offset of the kind byte after the accepted events, and the bad field of the event there.
fn refused(line: &Line) -> Result<(u64, BadField), String> {
    let part = PARTS.get(line.part as usize).ok_or("no such part")?;
    let (kind_byte, event) = after(&line.trace, line.ran.count);
    let event = event.ok_or("no event is left to be refused")?;
    let bad = bad_field(part, event);
    let bad = bad.ok_or(format!(
        "the event at {kind_byte} has no field out of range"
    ))?;
    Ok((kind_byte, bad))
}

/// The row with this number and offset; every other column is left byte for byte.
fn with(row: &str, given: Given) -> String {
    let (number, offset) = (given.number.to_string(), given.offset.to_string());
    let mut columns: Vec<&str> = row.split(' ').collect();
    columns[NUMBER] = &number;
    columns[OFFSET] = &offset;
    columns.join(" ")
}

impl fmt::Display for Given {
    fn fmt(&self, to: &mut fmt::Formatter<'_>) -> fmt::Result {
        write!(to, "{} {}", self.number, self.offset)
    }
}

impl fmt::Display for Change {
    fn fmt(&self, to: &mut fmt::Formatter<'_>) -> fmt::Result {
        write!(to, "line {}: {}, now {}", self.line, self.old, self.new)
    }
}

/// A line for each change, and how many there are of how many vectors.
impl fmt::Display for Renumbered {
    fn fmt(&self, to: &mut fmt::Formatter<'_>) -> fmt::Result {
        for change in &self.changes {
            writeln!(to, "{change}")?;
        }
        write!(to, "{} of {} changed", self.changes.len(), self.vectors)
    }
}
