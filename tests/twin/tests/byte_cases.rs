//! Selections as bytes drawn by a seed, each from the model that its trace leaves, and lists of them.

mod common;

use common::pins::{by_pins, Both};
use common::Bus;
use twin::gen::{self, ByteCase, Rng};
use twin::pins::spelled;
use twin::text::{first_memory, ByteLine};
use twin::{Ledger, Model};

/// What the cases of a part came to.
#[derive(Debug, Default)]
struct Tally {
    cases: u32,
    taken: u32,
    showed: u32,
    /// Changed the memory or the status bits.
    wrote: u32,
    /// Without power, or CS# 0.
    unready: u32,
    other_length: u32,
    trace_refused: u32,
    /// Of these, for a bad sample and for a bad expected value.
    bad_sample: u32,
    bad_expected: u32,
    bytes: usize,
}

impl Tally {
    fn count(&mut self, case: &ByteCase) {
        let (_, mut model) = Model::make(case.part, case.pins, case.bits);
        let mut memory = first_memory(model.part().size);
        let ran = model.run(&case.trace, u64::MAX, &mut memory, &mut Vec::new());
        self.cases += 1;
        self.bytes += case.input.len();
        self.trace_refused += u32::from(ran.number != 0);
        self.bad_sample += u32::from(ran.number == 6);
        self.bad_expected += u32::from(ran.number == 11);
        let (wp, mut cells) = (case.wp != 0, memory.clone());
        let mut after = model.clone();
        let mut output = vec![0; case.length];
        let selected = after.select(wp, &case.input, &mut output, &mut cells);
        match selected.number {
            0 => {
                Both::new(&model, &memory).agree(wp, &case.input);
                self.taken += 1;
                self.showed += u32::from(selected.count > 0);
                self.wrote += u32::from(cells != memory || after.bits() != model.bits());
            }
            12 => self.unready += 1,
            13 => self.other_length += 1,
            number => panic!("{number}"),
        }
    }
}

fn cases_of(part: u32, cases: u32) {
    let mut rng = Rng::new(0xb17e5 + u64::from(part));
    let mut tally = Tally::default();
    for _ in 0..cases {
        tally.count(&gen::byte_case(&mut rng, part));
    }
    assert!(tally.taken > cases * 7 / 10, "{tally:?}");
    assert!(tally.showed > cases / 5, "{tally:?}");
    assert!(tally.wrote > cases / 10, "{tally:?}");
    assert!(tally.trace_refused > cases / 100, "{tally:?}");
    assert!(tally.bad_sample > cases / 500, "{tally:?}");
    assert!(tally.bad_expected > cases / 1000, "{tally:?}");
    assert!(tally.unready > cases / 50, "{tally:?}");
    assert!(tally.other_length > cases / 100, "{tally:?}");
}

#[test]
fn part_0() {
    cases_of(0, 3000);
}

#[test]
fn part_1() {
    cases_of(1, 2000);
}

#[test]
fn part_2() {
    cases_of(2, 1500);
}

/// I2C parts get 4; a case is its line, and a line as text is that line.
#[test]
fn lines_of_cases() {
    let mut rng = Rng::new(0x11e);
    for part in [0, 1, 2, 3, 4, 9].repeat(20) {
        let case = gen::byte_case(&mut rng, part);
        let line = ByteLine::play(
            case.part,
            case.pins,
            case.bits,
            &case.trace,
            case.wp,
            &case.input,
            case.length,
        );
        assert_eq!(line.number == 4, part == 3 || part == 4);
        assert_eq!(line.output.len(), case.length);
        assert_eq!(ByteLine::parse(&line.to_string()), Some(line));
    }
}

/// One selection after another: bytes and pins go on alike, and both with the ledger of the pins.
#[test]
fn lists_of_selections() {
    let mut rng = Rng::new(0x115);
    for part in [0, 1, 2].repeat(30) {
        let mut bytes = Bus::spi(part, 0);
        let mut pins = Bus::spi(part, 0);
        let mut ledger = Ledger::begin(part, 0, 0, &pins.memory);
        ledger.feed(&[1, 25], 2);
        for _ in 0..20 {
            let wp = rng.chance(700);
            let drawn = gen::selection_bytes(&mut rng, part);
            let input = if rng.chance(250) { vec![6] } else { drawn };
            let mut output = vec![0; input.len()];
            let selected = bytes
                .model
                .select(wp, &input, &mut output, &mut bytes.memory);
            let expected = by_pins(&mut pins.model, &mut pins.memory, wp, &input);
            assert_eq!((output, selected), expected);
            assert_eq!(bytes.model, pins.model);
            for event in spelled(wp, &input).chunks(2) {
                assert!(!ledger.feed(event, 2), "a selection as bytes has no flag");
            }
            assert!(bytes.memory == pins.memory && bytes.memory == ledger.memory());
            assert_eq!(bytes.model.bits(), ledger.bits());
        }
    }
}
