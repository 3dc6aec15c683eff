//! The flag's offset of a run: the kind byte of the first accepted event with the flag, or the
//! trace's length.

#[path = "common/added.rs"]
mod added;

use added::added;
use twin::gen::{self, Knobs, Rng};
use twin::text::first_memory;
use twin::{Model, Ran};

/// Power on and off, power on with CS# 0 and WP# 1, a 05, three samples with WP# moved, and CS#
/// rises with WP# moved once more.
const SPI: [u8; 15] = [1, 25, 3, 1, 24, 5, 2, 4, 16, 4, 24, 4, 16, 4, 25];

/// WP moved at rest, power off and on, START with WP moved, two samples with WP moved, a 05, STOP
/// with WP moved, and WP moved at rest.
const I2C: [u8; 26] = [
    2, 3, 0, 0, 0, 4, 7, 3, 2, 3, 0, 0, 9, 4, 5, 4, 1, 4, 5, 5, 2, 4, 3, 4, 7, 3,
];

/// Where the kind bytes of the first events with the flag stand, and how many events come up to
/// them and with them.
const SPI_FIRST: (u64, u64) = (7, 5);
const I2C_FIRST: (u64, u64) = (15, 6);

fn cases() -> [(u32, &'static [u8], (u64, u64)); 5] {
    let spi = |part| (part, &SPI[..], SPI_FIRST);
    let i2c = |part| (part, &I2C[..], I2C_FIRST);
    [spi(0), spi(1), spi(2), i2c(3), i2c(4)]
}

/// A run of a part just made, with pins and bits 0.
fn run(part: u32, trace: &[u8], quota: u64) -> Ran {
    let (_, mut model) = Model::make(part, 0, 0);
    let mut memory = first_memory(model.part().size);
    model.run_each(trace, quota, &mut memory, |_| ())
}

/// Number, count, offset and flag's offset.
fn figures(part: u32, trace: &[u8]) -> (u8, u64, u64, u64) {
    let ran = run(part, trace, u64::MAX);
    (ran.number, ran.count, ran.offset, ran.flag)
}

/// Behind events of one byte, of two and of five; not the last, nor one at a border.
#[test]
fn the_first_of_several() {
    for part in 0..3 {
        assert_eq!(figures(part, &SPI), (0, 8, 15, 7));
        assert_eq!(figures(part, &SPI[3..]), (0, 6, 12, 4));
    }
    for part in 3..5 {
        assert_eq!(figures(part, &I2C), (0, 11, 26, 15));
        assert_eq!(figures(part, &I2C[8..]), (0, 8, 18, 7));
    }
}

/// The trace's length also where the run does not get to its end.
#[test]
fn none() {
    for part in 0..3 {
        assert_eq!(figures(part, &[]), (0, 0, 0, 0));
        assert_eq!(figures(part, &[1, 25, 4, 17]), (0, 2, 4, 4));
        assert_eq!(figures(part, &[1, 25, 4, 16, 4, 25]), (0, 3, 6, 6));
        assert_eq!(figures(part, &[1, 24, 9, 4, 16]), (4, 1, 2, 5));
        assert_eq!(figures(part, &[4, 24, 4, 16]), (7, 0, 0, 4));
    }
    for part in 3..5 {
        assert_eq!(figures(part, &[]), (0, 0, 0, 0));
        assert_eq!(figures(part, &[2, 3, 0, 0, 0, 4, 7]), (0, 2, 7, 7));
        assert_eq!(figures(part, &[2, 3, 0, 0, 0, 4, 5]), (0, 2, 7, 7));
        assert_eq!(
            figures(part, &[2, 3, 0, 0, 0, 4, 1, 9, 4, 5]),
            (4, 2, 7, 10)
        );
    }
}

/// Each quota up to the flag and over it.
#[test]
fn the_quota_ends_before_it() {
    for (part, trace, (place, events)) in cases() {
        for quota in 0..12 {
            let ran = run(part, trace, quota);
            let length = trace.len() as u64;
            let flag = if quota < events { length } else { place };
            assert_eq!((ran.number, ran.flag), (0, flag), "quota {quota}");
        }
    }
}

/// The event that would have it is refused, or one that comes later.
#[test]
fn refusals() {
    for part in 0..3 {
        assert_eq!(figures(part, &[1, 24, 4, 48]), (6, 1, 3, 4));
        assert_eq!(figures(part, &[1, 24, 4]), (5, 1, 2, 3));
        assert_eq!(figures(part, &[1, 24, 1, 16, 4, 16]), (8, 1, 2, 6));
        let late: [(&[u8], u8, u64); 5] = [
            (&[9, 4, 24], 4, 0),
            (&[4], 5, 0),
            (&[4, 56], 6, 1),
            (&[5, 1, 4, 24], 9, 0),
            (&[5, 3, 4, 24], 11, 1),
        ];
        for (event, number, behind) in late {
            let trace = [&[1, 24, 4, 16], event].concat();
            assert_eq!(figures(part, &trace), (number, 2, 4 + behind, 2));
        }
    }
    for part in 3..5 {
        let before = [2, 3, 0, 0, 0, 4, 1];
        let of = |rest: &[u8]| figures(part, &[&before, rest].concat());
        assert_eq!(of(&[4, 12]), (6, 2, 8, 9));
        assert_eq!(of(&[4, 5, 2, 1, 0, 0, 0]), (8, 3, 9, 7));
        assert_eq!(of(&[4, 5, 2, 1, 9, 0, 0]), (10, 3, 11, 7));
        assert_eq!(of(&[4, 5, 3, 4, 1, 4, 1]), (7, 4, 10, 7));
    }
}

/// A memory of another length: the trace's length, whatever the trace and the quota.
#[test]
fn the_memory_comes_first() {
    for (part, trace, _) in cases() {
        let (_, mut model) = Model::make(part, 0, 0);
        let mut memory = vec![0; model.part().size + 1];
        for quota in [0, 1, u64::MAX] {
            let ran = model.run_each(trace, quota, &mut memory, |_| ());
            let none = (3, 0, 0, trace.len() as u64);
            assert_eq!((ran.number, ran.count, ran.offset, ran.flag), none);
        }
    }
}

/// Which of two runs had the flag.
#[derive(Debug, Default)]
struct Tally {
    first: u32,
    second: u32,
    neither: u32,
    /// One had it, and the second was refused an event.
    refused: u32,
}

/// A trace as one run and as two.
struct Split<'a> {
    fresh: Model,
    memory: Vec<u8>,
    trace: &'a [u8],
}

impl Split<'_> {
    /// A run of the whole, and what it leaves.
    fn run(&self, quota: u64) -> (Ran, Model, Vec<u8>) {
        let (mut model, mut memory) = (self.fresh.clone(), self.memory.clone());
        let ran = model.run_each(self.trace, quota, &mut memory, |_| ());
        (ran, model, memory)
    }

    /// Cut in two after every event; the second run stops an event before the end, or goes on.
    fn check(&self, tally: &mut Tally) {
        let whole = self.run(u64::MAX).0.count;
        for j in 0..=whole {
            let (first, model, memory) = self.run(j);
            assert_eq!((first.number, first.count), (0, j));
            for k in [whole.saturating_sub(j + 1), u64::MAX - j] {
                let (mut model, mut memory) = (model.clone(), memory.clone());
                let rest = &self.trace[first.offset as usize..];
                let second = model.run_each(rest, k, &mut memory, |_| ());
                let (ran, same, same_memory) = self.run(j + k);
                assert_eq!(added(first, second, self.trace), ran, "{j}, then {k}");
                assert!(same == model && same_memory == memory, "{j}, then {k}");
                let flagged = first.flag < self.trace.len() as u64;
                tally.add(flagged, second, rest);
            }
        }
    }
}

impl Tally {
    fn add(&mut self, first: bool, second: Ran, rest: &[u8]) {
        let flagged = second.flag < rest.len() as u64;
        match (first, flagged) {
            (true, _) => self.first += 1,
            (false, true) => self.second += 1,
            (false, false) => self.neither += 1,
        }
        self.refused += u32::from(second.number != 0 && (first || flagged));
    }
}

/// The traces above, and short ones as they are drawn.
#[test]
fn two_runs_for_one() {
    let mut tally = Tally::default();
    let mut check = |part, pins, bits, trace: &[u8]| {
        let (_, fresh) = Model::make(part, pins, bits);
        let memory = first_memory(fresh.part().size);
        let split = Split {
            fresh,
            memory,
            trace,
        };
        split.check(&mut tally);
    };
    for (part, trace, _) in cases() {
        check(part, 0, 0, trace);
    }
    let mut rng = Rng::new(0xf1a6);
    for part in [0, 1, 2, 3, 3, 4].repeat(10) {
        let mut knobs = Knobs::draw(&mut rng, part);
        knobs.blocks = 1;
        let trace = gen::trace_with(&mut rng, part, &knobs);
        check(part, knobs.pins, knobs.bits, &trace);
    }
    let counts = [tally.first, tally.second, tally.neither, tally.refused];
    assert!(counts.iter().all(|&count| count > 100), "{tally:?}");
}
