//! Generated traces and their flags: that write protect moves at each sort of place, that just those
//! have the flag which are to have it, and that the first lies now here and now there.

#[path = "common/places.rs"]
mod places;

use places::{I2c, Place, Spi};
use std::collections::BTreeMap;
use twin::gen::{self, Case, Rng};
use twin::text::first_memory;
use twin::trace::events;
use twin::{Model, Part, PARTS};

/// The wires of a part under power, for the place of each sample.
enum Wires {
    Spi(Spi),
    I2c(I2c),
}

/// A trace followed event by event: where write protect moved.
struct Follow {
    part: &'static Part,
    pins: u32,
    pin: u8,
    wires: Option<Wires>,
    /// The last sample, and the kind of the last event.
    sample: u8,
    kind: u8,
    seen: Seen,
}

/// What a trace had, or several did.
#[derive(Debug, Default)]
struct Seen {
    /// Samples with write protect moved, by their places.
    moved: BTreeMap<Place, u32>,
    /// Of those with the flag: the event before was a 05, or a power on.
    after_expected: u32,
    after_power_on: u32,
    flags: u32,
}

impl Follow {
    fn new(case: &Case) -> Follow {
        let part = &PARTS[case.part as usize];
        Follow {
            part,
            pins: case.pins,
            pin: part.protect_pin(),
            wires: None,
            sample: 0,
            kind: 0,
            seen: Seen::default(),
        }
    }

    /// Enters an accepted event; whether the wires give it the flag.
    fn enter(&mut self, event: &[u8], answer: u8) -> bool {
        let before = std::mem::replace(&mut self.kind, event[0]);
        match *event {
            [1, sample, ..] => {
                self.sample = sample;
                self.wires = Some(Wires::Spi(Spi::on(self.part, sample)));
            }
            [2, sample, ..] => {
                self.sample = sample;
                self.wires = Some(Wires::I2c(I2c::on(self.part, self.pins, sample)));
            }
            [4, sample, ..] => return self.sample(sample, answer, before),
            _ => {}
        }
        false
    }

    fn sample(&mut self, new: u8, answer: u8, before: u8) -> bool {
        let place = match self.wires.as_mut().expect("a sample needs power") {
            Wires::Spi(spi) => spi.place(new),
            Wires::I2c(i2c) => i2c.place(new, answer),
        };
        let old = std::mem::replace(&mut self.sample, new);
        let moved = (old ^ new) & self.pin != 0;
        if moved {
            *self.seen.moved.entry(place).or_default() += 1;
        }
        let flag = moved && place.still();
        self.seen.flags += u32::from(flag);
        self.seen.after_expected += u32::from(flag && before == 5);
        self.seen.after_power_on += u32::from(flag && matches!(before, 1 | 2));
        flag
    }
}

/// What the traces of a part came to.
#[derive(Debug, Default)]
struct Tally {
    seen: Seen,
    traces: u32,
    /// Traces without a moved pin, and with one but without a flag.
    still: u32,
    only_moved: u32,
    /// Those with a flag, by the fifth of the trace in which the first lies.
    fifths: [u32; 5],
    /// Those with one flag, with several, with a 03 before the first, and with a refusal.
    one: u32,
    several: u32,
    after_cut: u32,
    refused_after: u32,
    /// Refused without a flag before.
    refused_only: u32,
}

impl Tally {
    fn of_part(part: u32, traces: u32) -> Tally {
        let mut rng = Rng::new(0xf1a65 + u64::from(part));
        let mut tally = Tally::default();
        for _ in 0..traces {
            tally.add(&gen::case_of(&mut rng, part));
        }
        tally
    }

    /// Runs a trace, whose flags must be those that the wires give.
    fn add(&mut self, case: &Case) {
        let (_, mut model) = Model::make(case.part, case.pins, case.bits);
        let mut memory = first_memory(model.part().size);
        let (mut follow, mut at, mut first) = (Follow::new(case), 0, None);
        let mut cut = false;
        let mut refused = false;
        for event in events(&case.trace) {
            let (number, answer, flag) = model.event(event, &mut memory);
            if number != 0 {
                refused = true;
                break;
            }
            assert_eq!(flag, follow.enter(event, answer), "{event:?} at {at}");
            if flag && first.is_none() {
                first = Some(at);
                self.after_cut += u32::from(cut);
            }
            cut |= event[0] == 3;
            at += event.len();
        }
        self.traces += 1;
        match first {
            Some(place) => self.flagged(5 * place / case.trace.len(), &follow.seen, refused),
            None => {
                let moved = !follow.seen.moved.is_empty();
                self.still += u32::from(!moved);
                self.only_moved += u32::from(moved);
                self.refused_only += u32::from(refused);
            }
        }
        self.seen.join(follow.seen);
    }

    fn flagged(&mut self, fifth: usize, seen: &Seen, refused: bool) {
        self.fifths[fifth] += 1;
        self.one += u32::from(seen.flags == 1);
        self.several += u32::from(seen.flags > 1);
        self.refused_after += u32::from(refused);
    }

    /// Each sort of place, with the borders of selections and spans more often than chance would
    /// have it.
    fn assert_places(&self, places: &[Place]) {
        for place in places {
            let moved = self.seen.moved.get(place).copied();
            let least = match place {
                Place::Fall | Place::Rise | Place::StartAtRest | Place::Stop => self.traces / 6,
                Place::StartAgain => self.traces / 20,
                _ => self.traces / 50,
            };
            assert!(moved > Some(least), "{place:?}: {self:#?}");
        }
        let known = |place: &Place| places.contains(place);
        assert!(self.seen.moved.keys().all(known), "{self:#?}");
        assert!(self.seen.after_expected > self.traces / 50, "{self:#?}");
    }

    /// Each sort of trace. Of those with a flag, less than half have it in the first fifth.
    fn assert_traces(&self) {
        let flagged: u32 = self.fifths.iter().sum();
        let unflagged = self.traces - flagged;
        assert!(3 * flagged.min(unflagged) > self.traces, "{self:#?}");
        assert!(2 * self.fifths[0] < flagged, "{self:#?}");
        let sorts = [
            &self.fifths[..],
            &[self.still, self.only_moved, self.one, self.several],
            &[self.after_cut, self.refused_after, self.refused_only],
        ];
        for sort in sorts.concat() {
            assert!(sort > self.traces / 50, "{self:#?}");
        }
    }
}

impl Seen {
    fn join(&mut self, other: Seen) {
        for (place, count) in other.moved {
            *self.moved.entry(place).or_default() += count;
        }
        self.flags += other.flags;
        self.after_expected += other.after_expected;
        self.after_power_on += other.after_power_on;
    }
}

#[test]
fn spi() {
    for part in 0..3 {
        let tally = Tally::of_part(part, 1000);
        // Only part 1 sleeps.
        let sleeps = |place: &Place| *place != Place::Asleep || part == 1;
        let places: Vec<Place> = places::SPI.into_iter().filter(sleeps).collect();
        tally.assert_places(&places);
        tally.assert_traces();
        assert!(tally.seen.after_power_on > 5, "{tally:#?}");
    }
}

/// A power on leaves the part at rest, so that no flag comes just after it.
#[test]
fn i2c() {
    for part in 3..5 {
        let tally = Tally::of_part(part, 1000);
        tally.assert_places(&places::I2C);
        tally.assert_traces();
        assert_eq!(tally.seen.after_power_on, 0);
    }
}
