//! Traces made by hand that move WP, each with the first event that has the flag, if one has: a rule
//! of ask 2 that build, twin and ledger might all misread.

mod i2c;
mod spi;

use crate::script::Script;
use twin::PARTS;

/// A trace, what it shows, and what is to come of it.
#[derive(Clone, Debug)]
pub struct Shown {
    pub what: String,
    pub part: u32,
    pub trace: Vec<u8>,
    /// The number that ends it.
    pub number: u8,
    /// The first event with the flag, counted from 0.
    pub flagged: Option<u64>,
}

/// What a trace shows, and how it goes on after power on.
type Story = (&'static str, fn(&mut Script) -> End);

/// The number that ends a trace, and the place of the first event with the flag.
type End = (u8, Option<usize>);

/// An end without a refusal and without the flag.
const NONE: End = (0, None);

/// An end without a refusal, with the flag first at this place.
fn flagged(place: usize) -> End {
    (0, Some(place))
}

/// A sample with these wires and the other level of WP, which is this bit of it; its place.
fn moved(it: &mut Script, wp: u8, wires: u8) -> usize {
    it.others ^= wp;
    it.sample(wires)
}

/// Each story of the SPI parts.
pub fn spi() -> Vec<Shown> {
    told(0..3, spi::STORIES, Script::spi)
}

/// Each story of the I2C parts, made with pins 0.
pub fn i2c() -> Vec<Shown> {
    told(3..5, i2c::STORIES, || Script::i2c(0))
}

fn told(parts: std::ops::Range<u32>, stories: &[Story], begin: fn() -> Script) -> Vec<Shown> {
    let shown = |part: u32, (what, drive): &Story| {
        let mut script = begin();
        let (number, flagged) = drive(&mut script);
        Shown {
            what: format!("{}: {what}", PARTS[part as usize].name),
            part,
            trace: script.into_trace(),
            number,
            flagged: flagged.map(|place| place as u64),
        }
    };
    let of_part = |part| stories.iter().map(move |story| shown(part, story));
    parts.flat_map(of_part).collect()
}
