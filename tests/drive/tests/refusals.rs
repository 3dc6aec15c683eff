//! Bad input and limits: the right number, and nothing changed that must not be.

use drive::ask::Ask;
use drive::bad::{self, Bad};
use drive::bad_bytes;
use drive::held::Held;
use drive::lengths;
use drive::refused;
use drive::tally::refusals;
use sildrokk::calls::RESULT;
use std::collections::BTreeSet;
use twin::{Part, PARTS};

/// No such part, pins or bits: 1, which comes before 2, and the state is left as it is.
#[test]
fn every_bad_making() {
    for making in bad::no_makings() {
        lengths::every_making(making, 1).unwrap_or_else(|difference| panic!("{difference}"));
    }
}

/// A making that a part can have: the image of the twin's model, and 2 for a state of any other length,
/// which is left as it is.
#[test]
fn every_good_making() {
    for making in drive::good_makings() {
        lengths::every_making(making, 0).unwrap_or_else(|difference| panic!("{difference}"));
    }
}

/// What is given back is written in the table; all else is compared with the twin, for which a
/// refusal changes nothing.
#[test]
fn every_bad_call() {
    for Bad { call, ran, changed } in bad::calls() {
        let agreed = call
            .compare()
            .unwrap_or_else(|difference| panic!("{difference}: {call}"));
        assert_eq!((agreed.ran, agreed.changed), (ran, changed), "{call}");
    }
}

/// Each refused event by itself, at rest and without power, and with bytes after it that are not looked
/// at: its number, nothing driven, no flag, and neither state nor memory is changed. An event that is
/// cut short has nothing after it.
#[test]
fn every_bad_event() {
    for part in &PARTS {
        let [unpowered, powered] = lengths::models(part.number);
        for refused in refused::events(part) {
            let longer = [&refused.event[..], &[4, 0, 3]].concat();
            let events = match refused.number {
                5 => vec![refused.event],
                _ => vec![refused.event, longer],
            };
            for (held, has_power) in [(&unpowered, false), (&powered, true)] {
                if refused.when.holds(has_power) {
                    let each = events.iter().cloned();
                    each.for_each(|event| refuse(held, event, refused.number));
                }
            }
        }
    }
}

fn refuse(held: &Held, event: Vec<u8>, number: u8) {
    let mut left = held.clone();
    let about = format!("{event:x?}");
    let gave = left.ask(&Ask::Event(event));
    let mut result = vec![0; RESULT];
    result[0] = 2;
    assert_eq!((gave.number, gave.result), (number, result), "{about}");
    assert!(left == *held, "{about}");
}

/// The calls of a part in the table.
fn of_part(part: &Part) -> Vec<Bad> {
    let mut calls = bad::calls();
    calls.retain(|bad| bad.call.making.part == part.number);
    calls
}

/// Each number is in the table: those of an event at the front of a trace, where 8 and 9 cannot be,
/// after a stored byte, and after an event with the flag. Whether they and their offsets are right,
/// `every_bad_call` tells.
#[test]
fn the_table_has_each_number() {
    for part in &PARTS {
        let calls = of_part(part);
        let numbers = |met: fn(&Bad) -> bool| -> BTreeSet<u8> {
            let met = calls.iter().filter(|bad| met(bad));
            met.map(|bad| bad.ran.number).collect()
        };
        let of_events: BTreeSet<u8> = refusals(part).map(|number| number as u8).collect();
        let all = &of_events | &BTreeSet::from([0, 2, 3]);
        assert_eq!(numbers(|_| true), all, "part {}", part.number);
        let front = numbers(|bad| bad.ran.number > 3 && bad.ran.count == 0);
        assert_eq!(front, &of_events - &BTreeSet::from([8, 9]));
        let stored = numbers(|bad| bad.ran.number > 3 && bad.changed == 1);
        assert_eq!(stored, of_events);
        let flagged = numbers(|bad| bad.ran.number > 3 && has_flag(bad));
        assert_eq!(flagged, of_events);
    }
}

fn has_flag(bad: &Bad) -> bool {
    bad.ran.flag < bad.call.trace.len() as u64
}

#[test]
fn the_table_has_good_calls_that_store() {
    for part in &PARTS {
        let mut good = of_part(part);
        good.retain(|bad| bad.ran.number == 0);
        let agreed = good.iter().filter_map(|bad| bad.call.compare().ok());
        let stored = agreed.filter(|it| it.changed == 1).count();
        assert!(stored >= 80, "part {}", part.number);
    }
}

/// The same for selections as bytes: of those that are refused nothing is left but what the trace
/// did before, and both figures are 0.
#[test]
fn every_bad_selection() {
    for bad_bytes::Bad {
        call,
        number,
        changed,
    } in bad_bytes::calls()
    {
        let agreed = call
            .compare()
            .unwrap_or_else(|difference| panic!("{difference}: {call}"));
        let selected = agreed.selected;
        assert_eq!(
            (selected.number, agreed.changed),
            (number, changed),
            "{call}"
        );
        if number != 0 {
            let left = (selected.first, selected.count, agreed.stored);
            assert_eq!(left, (0, 0, 0), "{call}");
        }
    }
}

/// Each number is met, 4 on I2C alone; and good selections store, drive, and have no bytes.
#[test]
fn the_selections_have_each_number_and_good_ones() {
    let calls = bad_bytes::calls();
    let numbers = |spi: bool| -> BTreeSet<u8> {
        let of_bus = calls.iter().filter(|bad| (bad.call.making.part < 3) == spi);
        of_bus.map(|bad| bad.number).collect()
    };
    assert_eq!(numbers(true), BTreeSet::from([0, 2, 3, 12, 13]));
    assert_eq!(numbers(false), BTreeSet::from([2, 3, 4]));
    let good = || calls.iter().filter(|bad| bad.number == 0);
    let agreed = || good().filter_map(|bad| bad.call.compare().ok());
    assert!(agreed().filter(|it| it.stored == 3).count() >= 3 * 16);
    assert!(agreed().filter(|it| it.selected.count == 4).count() >= 3 * 16);
    assert!(good().filter(|bad| bad.call.input.is_empty()).count() >= 3 * 16);
}
