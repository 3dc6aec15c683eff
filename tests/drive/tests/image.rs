//! One image through thousands of calls of every kind, beside the twin's struct: after each call the
//! number, the whole result, the answers or what came back, the state and the whole memory are equal,
//! and the same call on a copy, with every buffer at an odd address, gives the same.

use drive::ask::{Ask, Gave};
use drive::held::Pair;
use drive::mixed::Mixed;
use drive::outcome::LEFT;
use drive::waits::Waits;
use drive::{good_makings, made, reached, Making};
use sildrokk::calls::STATE;
use std::collections::BTreeSet;
use twin::gen::Rng;
use twin::image::encode;
use twin::part::Wires;
use twin::{Model, PARTS};

/// What calls of one kind did.
#[derive(Debug, Default)]
struct Met {
    numbers: BTreeSet<u8>,
    /// Calls that stored a byte which is not what was there.
    stored: u64,
    /// Calls of which an event has the flag.
    flagged: u64,
}

impl Met {
    fn add(&mut self, ask: &Ask, gave: &Gave, stored: bool) {
        self.numbers.insert(gave.number);
        self.stored += u64::from(stored);
        self.flagged += u64::from(match ask {
            Ask::Event(_) => gave.result[1] == 1,
            Ask::Run { trace, .. } | Ask::Replay { trace, .. } => {
                gave.result[16..24] != (trace.len() as u64).to_be_bytes()
            }
            Ask::Select { .. } => false,
        });
    }
}

/// The kinds of calls: single events, runs, selections as bytes; and the waits that single events met.
#[derive(Debug, Default)]
struct Kinds([Met; 3], Waits);

impl Kinds {
    fn of(&mut self, ask: &Ask) -> &mut Met {
        &mut self.0[match ask {
            Ask::Event(_) => 0,
            Ask::Run { .. } | Ask::Replay { .. } => 1,
            Ask::Select { .. } => 2,
        }]
    }
}

/// So many calls on one model.
fn follow(making: Making, calls: u64, rng: &mut Rng, kinds: &mut Kinds) {
    let mut pair = Pair::new(making);
    let mut mixed = Mixed::new(making);
    for _ in 0..calls {
        let ask = mixed.draw(rng, pair.model.powered());
        let before = pair.held.clone();
        let gave = pair.ask(&ask).unwrap_or_else(|difference| {
            panic!("{making}, {:x?}: {ask:x?}: {difference}", before.state)
        });
        let stored = before.memory != pair.held.memory;
        kinds.of(&ask).add(&ask, &gave, stored);
        if matches!(ask, Ask::Event(_)) {
            kinds.1.step(&before.state, &pair.held.state);
        }
        mixed.asked(&ask, &gave);
    }
}

/// Calls of a part.
const CALLS: u64 = 45_000;

/// The least number of calls of each kind that store, and of single events and runs with a flag.
const STORED: u64 = 30;
const FLAGGED: u64 = 80;

/// The least number of bytes that wait among single events, and of what ends that.
const WAITS: Waits = Waits {
    reached: 90,
    by_rise: 70,
    by_cs: 25,
    lost: 1,
    held: 8,
};

/// A model of each making of a part. Every number that a call can give is given.
fn follow_part(part: u32) {
    let mut rng = Rng::new(0x1a6e + u64::from(part));
    let mut makings = good_makings();
    makings.retain(|making| making.part == part);
    let mut kinds = Kinds::default();
    let calls = CALLS / makings.len() as u64;
    for &making in &makings {
        follow(making, calls, &mut rng, &mut kinds);
    }
    let Kinds([events, runs, selections], waits) = &kinds;
    waits.assert_least(part, WAITS);
    let (own, selected, by_selections) = match PARTS[part as usize].wires {
        Wires::Spi => (vec![], BTreeSet::from([0, 12, 13]), STORED),
        Wires::I2c => (vec![10], BTreeSet::from([4]), 0),
    };
    let all: BTreeSet<u8> = own.into_iter().chain([0, 4, 5, 6, 7, 8, 9, 11]).collect();
    assert_eq!((&events.numbers, &runs.numbers), (&all, &all));
    assert_eq!(selections.numbers, selected);
    for met in [events, runs] {
        assert!(met.stored >= STORED && met.flagged >= FLAGGED, "{kinds:?}");
    }
    assert!(selections.stored >= by_selections, "{kinds:?}");
}

#[test]
fn part_0() {
    follow_part(0);
}

#[test]
fn part_1() {
    follow_part(1);
}

#[test]
fn part_2() {
    follow_part(2);
}

#[test]
fn part_3() {
    follow_part(3);
}

#[test]
fn part_4() {
    follow_part(4);
}

/// What may be in a buffer before a making: bytes that are all the same, or another model's image.
fn fillings() -> Vec<Vec<u8>> {
    let same = [0x00, LEFT, 0xff].map(|byte| vec![byte; STATE]);
    let images = reached::states(4, 1).into_values().flatten();
    images.chain(same).collect()
}

/// Each making that a part can have writes the whole image, whatever was in the buffer, and no two
/// write the same.
#[test]
fn makings() {
    let images: BTreeSet<Vec<u8>> = good_makings().into_iter().map(made).collect();
    assert_eq!(images.len(), good_makings().len());
    let fillings = fillings();
    for making in good_makings() {
        let Making { part, pins, bits } = making;
        let (_, model) = Model::make(part, pins, bits);
        for filling in &fillings {
            let mut state = filling.clone();
            let number = making.make(state.as_mut_slice().into());
            assert_eq!(number, 0, "{making}");
            assert_eq!(state, encode(&model), "{making} over {filling:x?}");
        }
    }
}
