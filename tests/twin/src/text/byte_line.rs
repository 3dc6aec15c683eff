//! The line format of the vectors of selections as bytes.

use super::{changed_cells, first_memory, hex, or_dash, parse_changed, parse_hex, write_changed};
use crate::model::Model;
use std::fmt::{Display, Formatter, Result};

/// What the bytes of the output are before the selection.
pub const OUTPUT_BEFORE: u8 = 0xcc;

/// One line: part pins bits trace wp input length-of-buffer number first driven output changed.
#[derive(Clone, Debug, PartialEq, Eq)]
pub struct ByteLine {
    pub part: u32,
    pub pins: u32,
    pub bits: u32,
    /// The events before the selection.
    pub trace: Vec<u8>,
    /// The WP# level: low if 0, else high.
    pub wp: u32,
    pub input: Vec<u8>,
    /// The length of the output, which need not be the input's.
    pub length: usize,
    pub number: u8,
    pub first: u64,
    pub count: u64,
    pub output: Vec<u8>,
    /// The cells that the trace and the selection left other than they were.
    pub changed: Vec<(usize, u8)>,
}

impl ByteLine {
    /// Runs the trace from the first memory, up to its end or to an event that is refused, and then
    /// the selection. A refused making is the model of part 0.
    pub fn play(
        part: u32,
        pins: u32,
        bits: u32,
        trace: &[u8],
        wp: u32,
        input: &[u8],
        length: usize,
    ) -> ByteLine {
        let (_, mut model) = Model::make(part, pins, bits);
        let mut memory = first_memory(model.part().size);
        model.run_each(trace, u64::MAX, &mut memory, |_| {});
        let mut output = vec![OUTPUT_BEFORE; length];
        let selected = model.select(wp != 0, input, &mut output, &mut memory);
        ByteLine {
            part,
            pins,
            bits,
            trace: trace.to_vec(),
            wp,
            input: input.to_vec(),
            length,
            number: selected.number,
            first: selected.first,
            count: selected.count,
            output,
            changed: changed_cells(&memory),
        }
    }

    /// The selection of a line played over again.
    pub fn again(&self) -> ByteLine {
        ByteLine::play(
            self.part,
            self.pins,
            self.bits,
            &self.trace,
            self.wp,
            &self.input,
            self.length,
        )
    }

    /// Reads a line; None if it isn't one.
    pub fn parse(line: &str) -> Option<ByteLine> {
        let fields: Vec<&str> = line.split_whitespace().collect();
        let &[part, pins, bits, trace, wp, input, ref result @ ..] = &fields[..] else {
            return None;
        };
        let &[length, number, first, count, output, changed] = result else {
            return None;
        };
        Some(ByteLine {
            part: part.parse().ok()?,
            pins: pins.parse().ok()?,
            bits: bits.parse().ok()?,
            trace: parse_hex(trace)?,
            wp: wp.parse().ok()?,
            input: parse_hex(input)?,
            length: length.parse().ok()?,
            number: number.parse().ok()?,
            first: first.parse().ok()?,
            count: count.parse().ok()?,
            output: parse_hex(output)?,
            changed: parse_changed(changed)?,
        })
    }
}

impl Display for ByteLine {
    fn fmt(&self, to: &mut Formatter<'_>) -> Result {
        let (trace, input, output) = (hex(&self.trace), hex(&self.input), hex(&self.output));
        write!(to, "{} {} {} ", self.part, self.pins, self.bits)?;
        write!(to, "{} {} {} ", or_dash(&trace), self.wp, or_dash(&input))?;
        write!(to, "{} {} ", self.length, self.number)?;
        write!(to, "{} {} {} ", self.first, self.count, or_dash(&output))?;
        write!(to, "{}", or_dash(&write_changed(&self.changed)))
    }
}
