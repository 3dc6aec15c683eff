//! Generated traces with fields out of range: that each sort comes up, with power and without, and
//! that a run ends there with its number and the place of its field.

#[path = "common/offset.rs"]
mod offset;

use offset::behind_kind;
use std::collections::{BTreeMap, BTreeSet};
use std::ops::RangeInclusive;
use twin::gen::{self, Case, Knobs, Rng};
use twin::text::first_memory;
use twin::trace::{after, events, i2c_on};
use twin::{Model, Part, Ran, PARTS};

/// What is out of range in an event.
#[derive(Clone, Copy, Debug, PartialEq, Eq, PartialOrd, Ord)]
enum Wrong {
    SampleOfPowerOn,
    StartAddress,
    SampleAndStartAddress,
    Sample,
    Expected,
}

impl Wrong {
    fn number(self) -> u8 {
        match self {
            Wrong::SampleOfPowerOn | Wrong::SampleAndStartAddress | Wrong::Sample => 6,
            Wrong::StartAddress => 10,
            Wrong::Expected => 11,
        }
    }
}

/// The values that a field may have on a part: SPI samples have five bits, those of I2C three.
struct Limits {
    spi: bool,
    sample: u8,
    size: u32,
}

impl Limits {
    fn of(part: &Part) -> Limits {
        let spi = part.number < 3;
        Limits {
            spi,
            sample: if spi { 31 } else { 7 },
            size: part.size as u32,
        }
    }

    /// None if all is in range, if the event isn't whole or if the bus lacks its kind.
    fn wrong(&self, event: &[u8]) -> Option<Wrong> {
        match (event, self.spi) {
            (&[1, sample], true) => (sample > self.sample).then_some(Wrong::SampleOfPowerOn),
            (&[2, sample, high, middle, low], false) => {
                let start = u32::from_be_bytes([0, high, middle, low]);
                match (sample > self.sample, start >= self.size) {
                    (true, true) => Some(Wrong::SampleAndStartAddress),
                    (true, false) => Some(Wrong::SampleOfPowerOn),
                    (false, true) => Some(Wrong::StartAddress),
                    (false, false) => None,
                }
            }
            (&[4, sample], _) => (sample > self.sample).then_some(Wrong::Sample),
            (&[5, value], _) => (value > 2).then_some(Wrong::Expected),
            _ => None,
        }
    }

    /// The sorts that there are on the part's bus.
    fn sorts(&self) -> Vec<Wrong> {
        use Wrong::*;
        if self.spi {
            vec![SampleOfPowerOn, Sample, Expected]
        } else {
            let on = [SampleOfPowerOn, StartAddress, SampleAndStartAddress];
            [&on[..], &[Sample, Expected]].concat()
        }
    }
}

/// The length of the longest event, which is 02.
const LONGEST: usize = 5;

/// What a part's traces came to.
struct Seen {
    limits: Limits,
    /// Runs that ended at a bad field, by its sort and by whether there was power.
    ended: BTreeMap<(Wrong, bool), u32>,
    /// The same by number, for those at the first event, at the last one, and in between, with more
    /// behind them than one event can hold.
    first: BTreeSet<u8>,
    last: BTreeSet<u8>,
    between: BTreeSet<u8>,
    /// Bad fields with another one in the event behind.
    two: u32,
    /// The events at which runs ended, with their numbers, and those that were accepted (0).
    events: BTreeSet<(u8, Vec<u8>)>,
}

impl Seen {
    fn of_part(part: &Part, knobs: impl Fn(&mut Rng) -> Knobs, traces: u32) -> Seen {
        let mut seen = Seen {
            limits: Limits::of(part),
            ended: BTreeMap::new(),
            first: BTreeSet::new(),
            last: BTreeSet::new(),
            between: BTreeSet::new(),
            two: 0,
            events: BTreeSet::new(),
        };
        let mut rng = Rng::new(0xf1e1d + u64::from(part.number));
        for _ in 0..traces {
            let knobs = knobs(&mut rng);
            let trace = gen::trace_with(&mut rng, part.number, &knobs);
            seen.add(&Case {
                part: part.number,
                pins: knobs.pins,
                bits: knobs.bits,
                trace,
            });
        }
        seen
    }

    /// Runs a trace. Where it ended is told by the count alone, not by the offset.
    fn add(&mut self, case: &Case) {
        let (_, mut model) = Model::make(case.part, case.pins, case.bits);
        let mut memory = first_memory(model.part().size);
        let ran = model.run_each(&case.trace, u64::MAX, &mut memory, |_| ());
        for event in events(&case.trace).take(ran.count as usize) {
            assert_eq!(self.limits.wrong(event), None, "accepted: {event:?}");
            self.events.insert((0, event.to_vec()));
        }
        let (at, _) = after(&case.trace, ran.count);
        if ran.number == 0 {
            let end = case.trace.len() as u64;
            assert_eq!((ran.offset, at), (end, end));
            return;
        }
        self.ended_at(ran, at, &case.trace[at as usize..], model.powered());
    }

    /// A run that was refused the event in front of the rest. A bad field and no other thing gives
    /// the number of one, and the offset shows that field.
    fn ended_at(&mut self, ran: Ran, at: u64, rest: &[u8], powered: bool) {
        let mut behind = events(rest);
        let event = behind.next().expect("an event is refused");
        self.events.insert((ran.number, event.to_vec()));
        let Some(wrong) = self.limits.wrong(event) else {
            assert!(!matches!(ran.number, 6 | 10 | 11), "{ran:?} for {event:?}");
            assert_eq!(ran.offset, at, "{event:?}");
            return;
        };
        let number = wrong.number();
        let offset = at + behind_kind(number);
        assert_eq!((ran.number, ran.offset), (number, offset), "{event:?}");
        *self.ended.entry((wrong, powered)).or_default() += 1;
        let second = behind.next().and_then(|event| self.limits.wrong(event));
        self.two += u32::from(second.is_some());
        let others = &rest[event.len()..];
        if ran.count == 0 {
            self.first.insert(number);
        } else if others.is_empty() {
            self.last.insert(number);
        } else if others.len() > LONGEST {
            self.between.insert(number);
        }
    }

    /// That a run ended so at an event.
    fn assert_event(&self, number: u8, event: &[u8]) {
        let seen = self.events.contains(&(number, event.to_vec()));
        assert!(seen, "{event:?} never came to {number}");
    }

    fn assert_sorts(&self) {
        for wrong in self.limits.sorts() {
            for powered in [false, true] {
                let runs = self.ended.get(&(wrong, powered));
                assert!(runs > Some(&2), "{wrong:?}, power {powered}: {runs:?}");
            }
        }
        let numbers = if self.limits.spi {
            BTreeSet::from([6, 11])
        } else {
            BTreeSet::from([6, 10, 11])
        };
        assert_eq!(self.first, numbers, "first events");
        assert_eq!(self.last, numbers, "last events");
        assert_eq!(self.between, numbers, "events in between");
        assert!(self.two > 0, "none behind another");
    }

    /// The first values out of range and the highest, and values besides these.
    fn assert_values(&self) {
        let most = self.limits.sample;
        let on = if self.limits.spi { 1 } else { 2 };
        for (kind, number, least) in [(on, 6, most + 1), (4, 6, most + 1), (5, 11, 3)] {
            let any = |values: RangeInclusive<u8>| {
                self.any(number, |event| {
                    event[0] == kind && values.contains(&event[1])
                })
            };
            for value in [least, least + 1, 255] {
                assert!(any(value..=value), "kind {kind}, value {value}");
            }
            assert!(any(least + 2..=254), "kind {kind}: no other value");
        }
        if !self.limits.spi {
            self.assert_start_addresses();
        }
    }

    /// With a good sample (10) and with a bad one (6).
    fn assert_start_addresses(&self) {
        let size = self.limits.size;
        for number in [10, 6] {
            let any = |starts: RangeInclusive<u32>| {
                self.any(number, |event| match *event {
                    [2, _, high, middle, low] => {
                        starts.contains(&u32::from_be_bytes([0, high, middle, low]))
                    }
                    _ => false,
                })
            };
            for start in [size, size + 1, 0xff_ffff] {
                assert!(any(start..=start), "{number} with {start:x}");
            }
            assert!(any(size + 2..=0xff_fffe), "{number}: no other start");
        }
    }

    /// A bad sample that is not looked at: on the power on of the other bus, and on I2C in an event
    /// that is cut short.
    fn assert_not_looked_at(&self) {
        let bad = |event: &[u8]| event.get(1).is_some_and(|&it| it > self.limits.sample);
        let other = if self.limits.spi { 2 } else { 1 };
        assert!(self.any(4, |event| event[0] == other && bad(event)));
        assert_ne!(self.limits.spi, self.any(5, bad), "cut short");
    }

    fn any(&self, number: u8, holds: impl Fn(&[u8]) -> bool) -> bool {
        let mut events = self.events.iter();
        events.any(|(given, event)| *given == number && holds(event))
    }

    /// The last values in range: taken, or refused for power or for want of it.
    fn assert_limits(&self) {
        let most = self.limits.sample;
        let on = if self.limits.spi {
            vec![1, most]
        } else {
            i2c_on(most, self.limits.size - 1).into()
        };
        for (event, other) in [(&on[..], 8), (&[4, most], 7), (&[5, 2], 7)] {
            self.assert_event(0, event);
            self.assert_event(other, event);
        }
    }
}

/// Traces with knobs as they are drawn.
fn drawn(part: usize, traces: u32) {
    let part = &PARTS[part];
    let seen = Seen::of_part(part, |rng| Knobs::draw(rng, part.number), traces);
    seen.assert_sorts();
}

/// Short traces, each with such an event.
fn always(part: usize) {
    let knobs = |rng: &mut Rng| Knobs {
        blocks: 1,
        fields: 1000,
        damage: 0,
        noise: 0,
        ..Knobs::draw(rng, part as u32)
    };
    let seen = Seen::of_part(&PARTS[part], knobs, 2000);
    seen.assert_sorts();
    seen.assert_values();
    seen.assert_not_looked_at();
    seen.assert_limits();
}

#[test]
fn part_0() {
    drawn(0, 4000);
    always(0);
}

#[test]
fn part_1() {
    drawn(1, 4000);
    always(1);
}

#[test]
fn part_2() {
    drawn(2, 4000);
    always(2);
}

#[test]
fn part_3() {
    drawn(3, 4000);
    always(3);
}

#[test]
fn part_4() {
    drawn(4, 4000);
    always(4);
}

/// Without the knob, whole traces have no bad field at all.
#[test]
fn none_where_none_is_asked_for() {
    let knobs = |rng: &mut Rng| Knobs {
        fields: 0,
        damage: 0,
        noise: 0,
        ..Knobs::draw(rng, 3)
    };
    let seen = Seen::of_part(&PARTS[3], knobs, 500);
    assert!(seen.ended.is_empty(), "{:?}", seen.ended);
    assert!(!seen.events.is_empty());
}
