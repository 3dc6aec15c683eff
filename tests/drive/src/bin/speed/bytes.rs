//! Selections as bytes: which are measured, and how much of the time of its pins, of the twin and
//! of a copy each may take.

mod bench;

use bench::Bench;
use drive::script::{addressed, Script};
use drive::Making;
use twin::gen::Rng;
use twin::PARTS;

/// Data bytes of a long selection: the smallest memory once.
const BYTES: usize = 4_096;

/// A selection and how often it is called in a turn, so that the clock's grain is lost in it.
struct Selection {
    name: &'static str,
    making: Making,
    /// The trace before it.
    before: Vec<u8>,
    input: Vec<u8>,
    length: &'static Length,
}

/// What goes for long selections, and what for short ones.
struct Length {
    calls: usize,
    calls_by_pins: usize,
    /// The most of the pins' time and of the copy's that one may take.
    of_pins: f64,
    of_copy: f64,
    /// Whether the limit to the twin's time goes for it. The bytes of a short one take two or three of
    /// a call's nanoseconds, too few to tell apart from its others by that limit.
    of_twin: bool,
}

const LONG: Length = Length {
    calls: 1_000,
    calls_by_pins: 4,
    of_pins: 0.01,
    of_copy: 4.0,
    of_twin: true,
};

const SHORT: Length = Length {
    calls: 10_000,
    calls_by_pins: 5_000,
    of_pins: 0.5,
    of_copy: f64::INFINITY,
    of_twin: false,
};

/// Prints the table; what is above its limit. To the twin's time that is the one given. The time of a
/// byte is less that of a call without one, which stands in the last columns. Each round has turns of
/// all selections, so that all of them meet the machine as it is through the whole run.
pub fn table(rounds: usize, limit: f64) -> Vec<String> {
    let long = (0..3).flat_map(|part| [read(part), write(part)]);
    let short = (0..3).flat_map(|part| [enable(part), status(part)]);
    let selections: Vec<Selection> = long.chain(short).collect();
    let mut benches: Vec<Bench> = selections.iter().map(Bench::new).collect();
    benches.iter_mut().for_each(Bench::agree);
    for _ in 0..rounds {
        benches.iter_mut().for_each(Bench::round);
    }
    print!("                               ns a byte                       ");
    println!("  by bytes over       ns a call");
    print!("selection    memory  bytes    by bytes  by pins     twin   copy  ");
    println!("  pins   twin   copy   image   twin");
    let above = |bench: &Bench| bench.selection.above(bench.shown(), limit);
    benches.iter().flat_map(above).collect()
}

fn read(part: u32) -> Selection {
    let input = [addressed(part, 3, 0), vec![0; BYTES]].concat();
    Selection::new("READ", part, Script::spi(), input)
}

fn write(part: u32) -> Selection {
    let mut rng = Rng::new(4);
    let mut script = Script::spi();
    script.command(&[6]);
    let data = (0..BYTES).map(|_| rng.byte()).collect();
    let input = [addressed(part, 2, 0), data].concat();
    Selection::new("WRITE", part, script, input)
}

fn enable(part: u32) -> Selection {
    Selection::new("WREN", part, Script::spi(), vec![6])
}

fn status(part: u32) -> Selection {
    Selection::new("RDSR", part, Script::spi(), vec![5, 0])
}

impl Selection {
    fn size(&self) -> usize {
        PARTS[self.making.part as usize].size
    }

    fn new(name: &'static str, part: u32, before: Script, input: Vec<u8>) -> Selection {
        Selection {
            name,
            making: Making::new(part, 0, 0),
            before: before.into_trace(),
            length: if input.len() > BYTES { &LONG } else { &SHORT },
            input,
        }
    }

    /// A line for each ratio, to pins, twin and copy, that is above its limit.
    fn above(&self, ratios: [f64; 3], limit: f64) -> Vec<String> {
        let of_twin = if self.length.of_twin {
            limit
        } else {
            f64::INFINITY
        };
        let limits = [self.length.of_pins, of_twin, self.length.of_copy];
        let names = ["pins", "the twin", "a copy"];
        let (name, part) = (self.name, self.making.part);
        let each = names.iter().zip(ratios).zip(limits);
        each.filter(|((_, ratio), limit)| ratio > limit)
            .map(|((of, ratio), limit)| {
                format!("{name} on part {part} takes {ratio:.4} of {of}, above {limit}")
            })
            .collect()
    }
}
