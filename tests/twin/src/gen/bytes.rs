//! Selections as bytes, each with a trace that comes before it.

use super::{border_address, known, trace_with, Knobs, Rng};
use crate::part::{spi_pin, Part, Wires};
use crate::pins::spelled;

/// A making, a trace, and then a selection.
#[derive(Clone, Debug)]
pub struct ByteCase {
    pub part: u32,
    pub pins: u32,
    pub bits: u32,
    pub trace: Vec<u8>,
    /// The WP# level: low if 0, else high.
    pub wp: u32,
    pub input: Vec<u8>,
    /// The length of the output.
    pub length: usize,
}

/// A case of one part. Mostly the trace is accepted whole and leaves a part that can be selected.
pub fn byte_case(rng: &mut Rng, part: u32) -> ByteCase {
    let mut knobs = Knobs::draw(rng, part);
    knobs.blocks = 3;
    // Half of the makings leave at least three quarters of the memory to write to.
    if rng.chance(500) {
        knobs.bits &= 5;
    }
    let input = selection_bytes(rng, part);
    let trace = trace_before(rng, part, &knobs, &input);
    let length = if rng.chance(950) {
        input.len()
    } else {
        rng.pick(&[input.len() + 1, input.len().saturating_sub(1), 0])
    };
    ByteCase {
        part,
        pins: knobs.pins,
        bits: knobs.bits,
        trace,
        wp: rng.pick(&[0, 0, 1, 1, 256, u32::MAX]),
        input,
        length,
    }
}

/// The bytes of a selection: mostly a command that the part has, sometimes cut short, sometimes any
/// bytes, sometimes none.
pub fn selection_bytes(rng: &mut Rng, part: u32) -> Vec<u8> {
    let part = known(part);
    match rng.below(100) {
        0..=2 => Vec::new(),
        3..=8 => (0..rng.below(14)).map(|_| rng.byte()).collect(),
        _ => {
            let mut input = command(rng, part);
            if rng.chance(40) {
                input.truncate(rng.below(input.len() as u64 + 1) as usize);
            }
            input
        }
    }
}

/// A code of the part, most often one that has data, and what goes behind it.
fn command(rng: &mut Rng, part: &Part) -> Vec<u8> {
    let six = rng.pick(&[
        0x06, 0x04, 0x05, 0x01, 0x01, 0x03, 0x03, 0x03, 0x02, 0x02, 0x02,
    ]);
    let code = if !part.more.is_empty() && rng.chance(300) {
        rng.pick(part.more).0
    } else {
        six
    };
    match code {
        0x01 => status_write(rng),
        0x02 | 0x03 | 0x0b => {
            let data = data_length(rng);
            addressed(rng, part, code, data)
        }
        0x05 | 0x9f => {
            let more = rng.pick(&[0, 1, 2, 3, 4, 5, 40]);
            with_data(rng, vec![code], more)
        }
        _ => {
            let more = rng.pick(&[0, 0, 0, 0, 1, 5]);
            with_data(rng, vec![code], more)
        }
    }
}

/// Few bytes, sometimes 300, rarely more than the memory of part 0 holds.
fn data_length(rng: &mut Rng) -> u64 {
    match rng.below(200) {
        0 => 4_096 + rng.below(4_200),
        1..=15 => 300,
        16..=80 => rng.below(5),
        _ => rng.below(40),
    }
}

/// A WRSR. The status bits most wanted are those that leave something to write.
fn status_write(rng: &mut Rng) -> Vec<u8> {
    let wanted = rng.pick(&[0x00, 0x04, 0x08, 0x0c, 0x80, 0x84, 0x88, 0x73, 0xff]);
    let more = rng.pick(&[0, 0, 0, 1, 3]);
    let mut input = with_data(rng, vec![0x01, wanted], more);
    if rng.chance(80) {
        input.truncate(1);
    }
    input
}

/// A code, an address at a border or a little before it, and data.
fn addressed(rng: &mut Rng, part: &Part, code: u8, data: u64) -> Vec<u8> {
    let near = border_address(rng, part);
    let before = if rng.chance(400) { rng.below(40) } else { 0 };
    let sent = near.wrapping_sub(before as u32);
    with_data(rng, part.addressed(code, sent as usize), data)
}

/// Some bytes behind the head.
fn with_data(rng: &mut Rng, head: Vec<u8>, data: u64) -> Vec<u8> {
    let mut input = head;
    input.extend((0..data).map(|_| rng.byte()));
    input
}

/// The trace before a selection: whole commands, or what disturbs them as well, or none.
fn trace_before(rng: &mut Rng, part: u32, knobs: &Knobs, input: &[u8]) -> Vec<u8> {
    let known = known(part);
    if rng.chance(30) {
        return Vec::new();
    }
    if known.wires == Wires::I2c {
        return trace_with(rng, part, knobs);
    }
    let mut out = if rng.chance(150) {
        let mut disturbed = trace_with(rng, part, knobs);
        disturbed.extend([4, any_sample(rng) | spi_pin::CS]);
        disturbed
    } else {
        commands(rng, known)
    };
    // What writes mostly has its enable.
    if matches!(input.first(), Some(1 | 2)) && rng.chance(850) {
        out.extend(spelled(true, &[6]));
    }
    match rng.below(100) {
        0..=2 => out.push(3),
        3..=4 => out.extend([4, any_sample(rng) & !spi_pin::CS]),
        5..=6 => cut_short(rng, &mut out, known),
        _ => {}
    }
    out
}

/// Power on and a few pieces, rarely with an event among them that is refused.
fn commands(rng: &mut Rng, part: &Part) -> Vec<u8> {
    let mut out = Vec::new();
    power_on(rng, &mut out);
    for _ in 0..rng.below(5) {
        piece(rng, part, &mut out);
        if rng.chance(15) {
            let bad_fields = rng.pick(&[[1, 32], [4, 32], [5, 3]]);
            out.extend(rng.pick(&[[9, 0], [1, 25], [5, 0], [2, 0], bad_fields]));
        }
    }
    out
}

/// A command, a power cut, or samples outside of a selection.
fn piece(rng: &mut Rng, part: &Part, out: &mut Vec<u8>) {
    let wp = rng.chance(700);
    let few = rng.below(5);
    match rng.below(10) {
        0..=1 => out.extend(spelled(wp, &[6])),
        2..=3 => {
            out.extend(spelled(wp, &[6]));
            out.extend(spelled(wp, &status_write(rng)));
        }
        4 => {
            out.extend(spelled(wp, &[6]));
            out.extend(spelled(wp, &addressed(rng, part, 0x02, few)));
        }
        5 => out.extend(spelled(wp, &[5, 0])),
        // Deaf on the parts that lack it.
        6 => out.extend(spelled(wp, &[0xb9])),
        7 => {
            if rng.chance(500) {
                cut_short(rng, out, part);
            }
            out.push(3);
            power_on(rng, out);
        }
        8 => out.extend(spelled(wp, &addressed(rng, part, 0x03, few))),
        _ => out.extend([4, any_sample(rng) | spi_pin::CS, 5, 2]),
    }
}

/// Power on, at last with CS# 1.
fn power_on(rng: &mut Rng, out: &mut Vec<u8>) {
    if rng.chance(150) {
        out.extend([1, any_sample(rng)]);
        out.extend([4, any_sample(rng) | spi_pin::CS]);
    } else {
        out.extend([1, any_sample(rng) | spi_pin::CS]);
    }
}

/// A selection that ends in the midst of its samples, CS# still low.
fn cut_short(rng: &mut Rng, out: &mut Vec<u8>, part: &Part) {
    let bytes = 1 + rng.below(4);
    let code = rng.pick(&[0x02, 0x05, 0x06]);
    let trace = spelled(true, &addressed(rng, part, code, bytes));
    let events = 1 + rng.below(trace.len() as u64 / 2 - 1) as usize;
    out.extend(&trace[..2 * events]);
}

fn any_sample(rng: &mut Rng) -> u8 {
    rng.byte() & 31
}
