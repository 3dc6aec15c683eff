//! Every length of state and result from 0 to 40, for each call but making, without power and under it
//! (`drive::lengths` has what is to come of it). Then the right lengths: with a memory of another length
//! the number is 3, in every phase, and with the part's all is as the twin has it. `tests/refusals.rs`
//! has the lengths of a making.

use drive::ask::Ask;
use drive::bad::no_sizes;
use drive::held::Held;
use drive::lengths::{asks, every_pair, models};
use drive::{phases, reached};
use sildrokk::calls::RESULT;
use twin::image::{decode, encode};
use twin::text::first_memory;
use twin::PARTS;

/// A memory of another length, which holds the part's bytes as far as it goes.
fn other_memory(held: &Held, ask: &Ask, size: usize) {
    let mut memory = held.memory.clone();
    memory.resize(size, 0);
    let (mut left, mut state) = (memory.clone(), held.state.clone());
    let gave = ask.call(&mut state, &mut left, RESULT);
    assert_eq!(gave, ask.refused(3, RESULT), "memory {size}: {ask:x?}");
    assert_eq!(state, held.state, "memory {size}: {ask:x?}");
    assert!(left == memory, "memory {size}: {ask:x?}");
}

fn right(held: &Held, ask: &Ask) {
    let mut model = decode(&held.state).expect("an image");
    let (mut ours, mut memory) = (held.clone(), held.memory.clone());
    let theirs = ask.twin(&mut model, &mut memory);
    assert_eq!(ours.ask(ask), theirs, "{ask:x?}");
    assert_eq!(ours.state, encode(&model), "{ask:x?}");
    assert!(ours.memory == memory, "{ask:x?}");
}

fn every_length(part: u32) {
    every_pair(part).unwrap_or_else(|difference| panic!("{difference}"));
    let table = &PARTS[part as usize];
    let asks = asks(table);
    for held in models(part).into_iter().chain(in_every_phase(part)) {
        for ask in &asks {
            let sizes = no_sizes(table).into_iter();
            sizes.for_each(|size| other_memory(&held, ask, size));
            right(&held, ask);
        }
    }
}

/// Models of the part in each phase that it can come to.
fn in_every_phase(part: u32) -> Vec<Held> {
    let table = &PARTS[part as usize];
    let reached = reached::states(part, 3);
    assert!(reached.keys().copied().eq(phases::of_part(table)));
    let held = |state| Held {
        state,
        memory: first_memory(table.size),
    };
    reached.into_values().flatten().map(held).collect()
}

#[test]
fn part_0() {
    every_length(0);
}

#[test]
fn part_1() {
    every_length(1);
}

#[test]
fn part_2() {
    every_length(2);
}

#[test]
fn part_3() {
    every_length(3);
}

#[test]
fn part_4() {
    every_length(4);
}
