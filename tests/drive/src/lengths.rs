//! Calls with every length of state and result from 0 to 40: 2 unless both are 32 bytes, before 3 and
//! before anything that is asked of the trace, and nothing is changed; a result of 32 bytes is written
//! all the same, and any other is left. A making has a state alone.

use crate::ask::Ask;
use crate::held::Held;
use crate::outcome::LEFT;
use crate::refused::power_on;
use crate::{tried, Making};
use sildrokk::calls::{RESULT, STATE};
use std::ops::RangeInclusive;
use twin::image::encode;
use twin::{Model, Part, PARTS};

pub const LENGTHS: RangeInclusive<usize> = 0..=40;

/// Each call with something to do, and with nothing; the power on is refused under power.
pub fn asks(part: &Part) -> Vec<Ask> {
    let on = power_on(part, part.max_sample(), 0);
    let trace = [&on[..], &[4, 0, 3]].concat();
    let run = |trace: &[u8], quota| Ask::Run {
        trace: trace.to_vec(),
        quota,
    };
    let replay = |trace: &[u8], quota| Ask::Replay {
        trace: trace.to_vec(),
        quota,
        room: 2,
    };
    let select = |input: &[u8], room| Ask::Select {
        wp: 1,
        input: input.to_vec(),
        room,
    };
    vec![
        Ask::Event(on),
        Ask::Event(vec![]),
        run(&trace, u64::MAX),
        run(&trace, 0),
        run(&[], u64::MAX),
        replay(&trace, u64::MAX),
        replay(&[], 0),
        select(&[6, 0], 2),
        select(&[], 0),
        select(&[6], 2),
    ]
}

/// A part just made, and the same under power.
pub fn models(part: u32) -> [Held; 2] {
    let table = &PARTS[part as usize];
    let unpowered = Held::new(Making::new(part, 0, 0));
    let mut powered = unpowered.clone();
    let on = Ask::Event(power_on(table, table.max_sample(), 0));
    assert_eq!(powered.ask(&on).number, 0);
    [unpowered, powered]
}

/// The image cut off, or with zeros behind it, and no byte to spare.
fn resized(state: &[u8], length: usize) -> Vec<u8> {
    let mut lent = vec![0; length];
    let kept = length.min(state.len());
    lent[..kept].copy_from_slice(&state[..kept]);
    lent
}

/// Lengths of state and result, of which one at least is wrong.
fn wrong_pairs() -> impl Iterator<Item = (usize, usize)> {
    let pairs = LENGTHS.flat_map(|state| LENGTHS.map(move |result| (state, result)));
    pairs.filter(|&pair| pair != (STATE, RESULT))
}

/// Each call with each of these pairs, without power and under it; the first one that is not as it
/// should be.
pub fn every_pair(part: u32) -> Result<(), String> {
    let asks = asks(&PARTS[part as usize]);
    for held in models(part) {
        for ask in &asks {
            sweep(&held, ask).map_err(|it| format!("part {part}, {ask:x?}: {it}"))?;
        }
    }
    Ok(())
}

/// One call with each pair, and with the part's memory or none.
fn sweep(held: &Held, ask: &Ask) -> Result<(), String> {
    let sizes = [held.memory.len(), 0];
    for ((length, result), size) in wrong_pairs().flat_map(|pair| sizes.map(|it| (pair, it))) {
        let state = resized(&held.state, length);
        let mut memory = held.memory[..size].to_vec();
        let refused = tried::refused(&state, ask, result, &mut memory);
        refused.map_err(|it| format!("state {length}, memory {size}: {it}"))?;
        if memory != held.memory[..size] {
            return Err(format!("state {length}, result {result}: memory changed"));
        }
    }
    Ok(())
}

/// The number of a making with a state of this length, if this is its number for part, pins and bits.
pub fn of_making(number: u8, length: usize) -> u8 {
    match (number, length) {
        (0, STATE) => 0,
        (0, _) => 2,
        _ => number,
    }
}

/// A making into a state of each length, with its number for part, pins and bits: it writes the image of
/// the twin's model, or leaves the state.
pub fn every_making(making: Making, number: u8) -> Result<(), String> {
    let Making { part, pins, bits } = making;
    let (_, model) = Model::make(part, pins, bits);
    for length in LENGTHS {
        let left = match of_making(number, length) {
            0 => encode(&model).to_vec(),
            _ => vec![LEFT; length],
        };
        let mut state = vec![LEFT; length];
        let given = making.make(state.as_mut_slice().into());
        if given != of_making(number, length) || state != left {
            return Err(format!("{making}, state {length}: {given}, {state:x?}"));
        }
    }
    Ok(())
}
