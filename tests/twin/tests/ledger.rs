//! Demand 3: after a cut at any event, memory and saved bits are those of the ledger. It tells the
//! same flags as the model.

use twin::gen::{self, Case, Rng};
use twin::image::encode;
use twin::text::first_memory;
use twin::trace::events;
use twin::{Ledger, Model};

/// A cut leaves the unpowered model of the ledger's bits, and the ledger's memory.
fn compare_cut(model: &Model, memory: &mut [u8], ledger: &Ledger) {
    let mut cut = model.clone();
    cut.event(&[3], memory);
    let part = model.part().number;
    let (number, fresh) = Model::make(part, model.pins(), u32::from(ledger.bits_after_cut()));
    assert_eq!((number, cut), (0, fresh));
    assert!(memory == ledger.memory(), "memory differs");
    assert_eq!(model.bits(), ledger.bits());
}

/// Feeds the events of a trace, refused ones in between included; returns the events that changed
/// the memory or the bits, those with the flag, and those after which a data byte waits.
fn follow(case: &Case, rng: &mut Rng) -> [u64; 3] {
    let (_, mut model) = Model::make(case.part, case.pins, case.bits);
    let mut memory = first_memory(model.part().size);
    let mut ledger = Ledger::begin(case.part, case.pins, case.bits, &memory);
    let mut rest = events(&case.trace).peekable();
    let (mut changes, mut flags, mut waits) = (0, 0, 0);
    compare_cut(&model, &mut memory, &ledger);
    while let Some(&next) = rest.peek() {
        let junk = [rng.byte() % 8, rng.byte()];
        let event = if rng.chance(5) { &junk[..] } else { next };
        if event != junk {
            rest.next();
        }
        let before = model.clone();
        let (number, answer, flag) = model.event(event, &mut memory);
        if number == 0 {
            changes += u64::from(memory != ledger.memory() || model.bits() != ledger.bits());
            assert_eq!(ledger.feed(event, answer), flag, "the flag of {event:?}");
            flags += u64::from(flag);
            waits += u64::from(encode(&model)[7] == 0x34);
        } else {
            assert_eq!((&model, answer, flag), (&before, 2, false));
        }
        compare_cut(&model, &mut memory, &ledger);
    }
    [changes, flags, waits]
}

/// So many generated traces of a part.
fn follow_part(part: u32, traces: u64) {
    let mut rng = Rng::new(0xced6e5 + u64::from(part));
    let mut sum = [0; 3];
    for _ in 0..traces {
        let case = gen::case_of(&mut rng, part);
        let more = follow(&case, &mut rng);
        sum = [0, 1, 2].map(|at| sum[at] + more[at]);
    }
    let ([changes, flags, waits], least) = (sum, traces / 2);
    assert!(changes > least, "{changes} writes in {traces} traces");
    assert!(flags > least, "{flags} flags in {traces} traces");
    let waited = if part == 1 { waits > least } else { waits == 0 };
    assert!(waited, "{waits} cuts while a byte waits");
}

#[test]
fn part_0() {
    follow_part(0, 200);
}

#[test]
fn part_1() {
    follow_part(1, 100);
}

#[test]
fn part_2() {
    follow_part(2, 100);
}

#[test]
fn part_3() {
    follow_part(3, 200);
}

#[test]
fn part_4() {
    follow_part(4, 100);
}

#[test]
fn a_refused_making_is_part_0() {
    let mut rng = Rng::new(5);
    let trace = gen::trace(&mut rng, 0);
    follow(
        &Case {
            part: 9,
            pins: 1,
            bits: 1,
            trace,
        },
        &mut rng,
    );
}
