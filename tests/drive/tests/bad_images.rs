//! Images that no call has left: some states of each phase of each part with each of the 256 values at
//! each byte, the same with several bytes changed at once, and images made up. The twin's `decode` says
//! which of them are images. Those that are not are refused with 2, and nothing is changed, whether or
//! not the result has its length. Those that are give what the twin gives on the decoded model, and a
//! run of no events leaves them byte for byte (`drive::tried`).

use drive::ask::Ask;
use drive::refused::power_on;
use drive::tried::{self, Memories};
use drive::{made_up, phases, reached};
use std::collections::BTreeSet;
use twin::gen::{self, Rng};
use twin::image::decode;
use twin::{Model, Part, PARTS};

/// How many changed images were taken, and how many refused.
#[derive(Debug, Default)]
struct Met {
    taken: u64,
    refused: u64,
}

/// An event that changes nothing where it can be had: the present answer expected, or a power on.
fn quiet(model: &Model) -> Ask {
    let part = model.part();
    Ask::Event(match model.powered() {
        true => vec![5, model.answer()],
        false => power_on(part, part.max_sample(), part.size - 1),
    })
}

/// A drawn sample, the next three as a run without answers and with them, and a selection.
fn drawn(part: &Part, rng: &mut Rng) -> [Ask; 4] {
    let mut sample = || vec![4, rng.byte() & part.max_sample()];
    let (one, trace) = (sample(), [sample(), sample(), sample()].concat());
    let input = gen::selection_bytes(rng, part.number);
    let quota = u64::MAX;
    let run = Ask::Run {
        trace: trace.clone(),
        quota,
    };
    let replay = Ask::Replay {
        trace,
        quota,
        room: 4,
    };
    let select = Ask::Select {
        wp: rng.pick(&[0, 1]),
        room: input.len(),
        input,
    };
    [Ask::Event(one), run, replay, select]
}

/// Drawn calls on a buffer; the part is that of the image before the change.
fn check(state: &[u8], part: &Part, rng: &mut Rng, memories: &mut Memories, met: &mut Met) {
    let model = decode(state);
    let mut asks = drawn(model.as_ref().map_or(part, |it| it.part()), rng).to_vec();
    match &model {
        Some(model) => {
            met.taken += 1;
            asks.push(quiet(model));
        }
        None => met.refused += 1,
    }
    let from = rng.below(4) as usize;
    tried::each(state, part, &asks, from, memories).unwrap_or_else(|it| panic!("{it}"));
}

/// Every value at every byte.
fn each_byte(state: &[u8], part: &Part, rng: &mut Rng, memories: &mut Memories, met: &mut Met) {
    for at in 0..state.len() {
        let mut changed = state.to_vec();
        for value in 0..=255 {
            changed[at] = value;
            check(&changed, part, rng, memories, met);
        }
        let same = memories.compare();
        same.unwrap_or_else(|it| panic!("{it}: {state:x?}, byte {at}"));
    }
}

/// A state with two to four bytes changed, to small values or to those of another, so that some are
/// taken.
fn some_bytes(states: &[Vec<u8>], rng: &mut Rng) -> Vec<u8> {
    let any = |rng: &mut Rng| &states[rng.below(states.len() as u64) as usize];
    let (mut changed, other) = (any(rng).clone(), any(rng));
    for _ in 0..2 + rng.below(3) {
        let at = rng.below(changed.len() as u64) as usize;
        let small = rng.byte() & 9;
        changed[at] = rng.pick(&[other[at], other[at], small]);
    }
    changed
}

/// Many drawn images, of which a good part is taken and a good part refused.
fn many(part: &Part, rng: &mut Rng, memories: &mut Memories, draw: impl Fn(&mut Rng) -> Vec<u8>) {
    let mut met = Met::default();
    for _ in 0..100_000 {
        let drawn = draw(rng);
        check(&drawn, part, rng, memories, &mut met);
    }
    let same = memories.compare();
    same.unwrap_or_else(|it| panic!("{it}: many drawn images"));
    assert!(met.taken > 2_000 && met.refused > 2_000, "{met:?}");
}

/// The least number of images of each part whose bytes are changed.
const IMAGES: [usize; 5] = [35, 51, 40, 22, 22];

/// States of every phase that the part can come to.
fn reached_states(part: &Part) -> Vec<Vec<u8>> {
    let reached = reached::states(part.number, 3);
    let phases: BTreeSet<(u8, u8)> = reached.keys().copied().collect();
    assert_eq!(phases, phases::of_part(part), "part {}", part.number);
    let states: Vec<Vec<u8>> = reached.into_values().flatten().collect();
    let least = IMAGES[part.number as usize];
    assert!(states.len() >= least, "only {} images", states.len());
    states
}

fn check_part(part: u32) {
    let mut rng = Rng::new(0xbad + u64::from(part));
    let table = &PARTS[part as usize];
    let states = reached_states(table);
    let (mut memories, mut met) = (Memories::first(), Met::default());
    for state in &states {
        each_byte(state, table, &mut rng, &mut memories, &mut met);
    }
    let (images, bytes) = (states.len() as u64, states[0].len() as u64);
    assert_eq!(met.taken + met.refused, images * bytes * 256);
    // Each byte has the value that it had, and the last sample some others.
    assert!(met.taken > images * (bytes + 7), "{met:?}");
    many(table, &mut rng, &mut memories, |rng| {
        some_bytes(&states, rng)
    });
    many(table, &mut rng, &mut memories, |rng| {
        made_up::image(rng, table)
    });
}

#[test]
fn part_0() {
    check_part(0);
}

#[test]
fn part_1() {
    check_part(1);
}

#[test]
fn part_2() {
    check_part(2);
}

#[test]
fn part_3() {
    check_part(3);
}

#[test]
fn part_4() {
    check_part(4);
}
