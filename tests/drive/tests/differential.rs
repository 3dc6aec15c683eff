//! Generated traces on the proved build and on the twin: number, answers, count, offset, flag offset,
//! state and the whole memory are equal, for the whole trace and for runs that a quota stops in it, one
//! of them just before the flagged event, one with it and one behind it; and the whole trace one event
//! at a time on one image.

use drive::call::Call;
use drive::tally::{refusals, Tally};
use drive::waits::Waits;
use drive::Making;
use twin::gen::{self, Case, Knobs, Rng};
use twin::PARTS;

/// Both, or the trace at which they differ. What a stopped run gives is also told by the whole one.
fn compare(case: Case, rng: &mut Rng, tally: &mut Tally) {
    let whole = Call::of(case);
    let compared = whole.compare().and_then(|agreed| {
        let drawn = rng.below(agreed.ran.count + 2);
        whole.compare_singly()?;
        whole.compare_stopped(&agreed, drawn).map(|_| agreed)
    });
    let agreed = compared.unwrap_or_else(|difference| panic!("{difference}: {whole}"));
    tally.add(&whole.trace, &agreed);
}

/// The least number of data bytes that wait in a thousand traces of part 1, and of what ends that.
const WAITS: Waits = Waits {
    reached: 1_700,
    by_rise: 1_300,
    by_cs: 380,
    lost: 30,
    held: 110,
};

/// Structured traces of a part, whose pins, bits, cuts, glitches, moves of WP and damage are drawn.
fn structured(part: u32, traces: u64) {
    let mut rng = Rng::new(0xd1ff + u64::from(part));
    let (mut tally, mut waits) = (Tally::default(), Waits::default());
    for _ in 0..traces {
        let case = gen::case_of(&mut rng, part);
        let making = Making::new(part, case.pins, case.bits);
        waits.add(making, &case.trace);
        compare(case, &mut rng, &mut tally);
    }
    waits.assert_least(part, WAITS);
    assert!(tally.accepted > 300 * traces, "{tally:?}");
    assert!(2 * tally.stored > traces, "{tally:?}");
    let unflagged = tally.traces - tally.flagged;
    assert!(4 * tally.flagged.min(unflagged) > traces, "{tally:?}");
    let met = (1..tally.numbers.len()).filter(|&number| tally.numbers[number] > 0);
    assert!(met.eq(refusals(&PARTS[part as usize])), "{tally:?}");
}

#[test]
fn part_0() {
    structured(0, 1000);
}

#[test]
fn part_1() {
    structured(1, 1000);
}

#[test]
fn part_2() {
    structured(2, 1000);
}

#[test]
fn part_3() {
    structured(3, 1000);
}

#[test]
fn part_4() {
    structured(4, 1000);
}

/// Random bytes and random samples, half of them damaged.
#[test]
fn noise() {
    let mut rng = Rng::new(0x4015e);
    let mut tally = Tally::default();
    for at in 0..5000 {
        let part = at % 5;
        let knobs = Knobs {
            noise: 1000,
            damage: 500,
            ..Knobs::draw(&mut rng, part)
        };
        let case = Case {
            part,
            pins: knobs.pins,
            bits: knobs.bits,
            trace: gen::trace_with(&mut rng, part, &knobs),
        };
        compare(case, &mut rng, &mut tally);
    }
    assert!(tally.accepted > 100_000, "{tally:?}");
}
