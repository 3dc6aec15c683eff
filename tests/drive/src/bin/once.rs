//! Some dozens of traces of all parts and of selections as bytes of the SPI parts, some hundreds of drawn
//! calls on one image of each part, every bad call, one in four of the bad selections, makings into every
//! length, every length of state and result on the two smallest parts, and images of every phase with a
//! byte changed or cut short, compared once: small enough for valgrind, under which each buffer is lent
//! by itself and with no byte to spare. The drawn calls are made again with nothing written to what a
//! call must not read, and so are the makings.

use drive::ask::Ask;
use drive::byte_call::ByteCall;
use drive::call::Call;
use drive::held::Pair;
use drive::lengths::LENGTHS;
use drive::mixed::Mixed;
use drive::tried::{self, Memories};
use drive::unread::make_unread;
use drive::{bad, bad_bytes, good_makings, lengths, reached, Making};
use sildrokk::calls::{self, STATE};
use std::fmt::Display;
use std::process::ExitCode;
use twin::gen::{self, Rng};
use twin::PARTS;

/// Drawn calls of each part.
const DRAWN: usize = 400;

fn main() -> ExitCode {
    let mut rng = Rng::new(0x07ce);
    let (calls, byte_calls) = (calls(&mut rng), byte_calls(&mut rng));
    let runs = calls.iter().all(|call| agree(call, call.compare()));
    let selections = byte_calls.iter().all(|call| agree(call, call.compare()));
    let mut held = (0..5).map(|part| {
        let of_part = |making: &Making| making.part == part;
        let last = good_makings().into_iter().rfind(of_part);
        last.expect("a making of each part")
    });
    let drawn = held.all(|it| agree(&it, drawn(it, &mut rng)));
    let makings = agree(&"makings", makings());
    let lengths = [0, 3]
        .iter()
        .all(|part| agree(part, lengths::every_pair(*part)));
    let images = (0..5).all(|part| agree(&part, changed_images(part)));
    if runs && selections && drawn && makings && lengths && images {
        let (runs, selections) = (calls.len(), byte_calls.len());
        println!("once: {runs} runs and {selections} selections as bytes agree, and");
        println!("{DRAWN} calls on one image of each part, every length of state and result, and");
        println!("images of every phase, each with a byte changed or cut short");
        ExitCode::SUCCESS
    } else {
        ExitCode::FAILURE
    }
}

fn calls(rng: &mut Rng) -> Vec<Call> {
    let mut calls = Vec::new();
    for at in 0..60 {
        let mut case = gen::case_of(rng, at % 5);
        case.trace.shrink_to_fit();
        let whole = Call::of(case);
        calls.push(whole.stopped(rng.below(400)));
        calls.push(whole);
    }
    calls.extend(bad::calls().into_iter().map(|bad| bad.call));
    calls
}

/// Selections of the SPI parts, and one in four of the bad ones.
fn byte_calls(rng: &mut Rng) -> Vec<ByteCall> {
    let drawn = (0..60).map(|at| {
        let mut case = gen::byte_case(rng, at % 3);
        case.trace.shrink_to_fit();
        case.input.shrink_to_fit();
        ByteCall::of(case)
    });
    let bad = bad_bytes::calls().into_iter().map(|bad| bad.call);
    drawn.chain(bad.step_by(4)).collect()
}

/// Calls on one image beside the twin, and each again on a copy in rooms that were never written.
fn drawn(making: Making, rng: &mut Rng) -> Result<(), String> {
    let (mut pair, mut mixed) = (Pair::new(making), Mixed::new(making));
    for _ in 0..DRAWN {
        let ask = exact(mixed.draw(rng, pair.model.powered()));
        let mut copy = pair.held.clone();
        let gave = pair.ask(&ask);
        let gave = gave.map_err(|difference| format!("{difference}: {ask:x?}"))?;
        let number = ask.call_unread(&mut copy.state, &mut copy.memory);
        if number != gave.number || copy != pair.held {
            return Err(format!("not the same in rooms never written: {ask:x?}"));
        }
        mixed.asked(&ask, &gave);
    }
    Ok(())
}

/// The same call with no byte to spare behind what goes in.
fn exact(mut ask: Ask) -> Ask {
    let (Ask::Event(bytes)
    | Ask::Run { trace: bytes, .. }
    | Ask::Replay { trace: bytes, .. }
    | Ask::Select { input: bytes, .. }) = &mut ask;
    bytes.shrink_to_fit();
    ask
}

/// Every making, those that no part can have among them, into a buffer of each length, and into one that
/// was never written.
fn makings() -> Result<(), String> {
    let good = good_makings().into_iter().map(|making| (making, 0));
    let bad = bad::no_makings().into_iter().map(|making| (making, 1));
    for (making, number) in good.chain(bad) {
        lengths::every_making(making, number)?;
        for length in LENGTHS {
            let made = make_unread(making, length);
            let same = match &made {
                Ok(state) => number == 0 && **state == drive::made(making),
                Err(refusal) => *refusal == lengths::of_making(number, length),
            };
            if !same {
                return Err(format!("{making}: {made:02x?} in a buffer never written"));
            }
        }
        let made = made_unread(making);
        let same = match &made {
            Ok(state) => number == 0 && drive::made(making) == state,
            Err(refusal) => *refusal == number,
        };
        if !same {
            return Err(format!("{making}: {made:02x?} on a stack never written"));
        }
    }
    Ok(())
}

/// A making by the crate, which has the state on the stack, where nothing was written to it before either.
///
/// Never inlined: valgrind takes the stack for unwritten where a function begins, and not where a loop
/// comes back to the place of the state before.
#[inline(never)]
fn made_unread(making: Making) -> Result<[u8; STATE], u8> {
    let Making { part, pins, bits } = making;
    calls::made(part, pins, bits)
}

/// An image of each phase of a part with each byte changed, which mostly makes it none, and cut to each
/// shorter length.
fn changed_images(part: u32) -> Result<(), String> {
    let table = &PARTS[part as usize];
    let (asks, mut memories) = (lengths::asks(table), Memories::first());
    for state in reached::states(part, 1).into_values().flatten() {
        for at in 0..STATE {
            let mut changed = state.clone();
            changed[at] ^= 0x80;
            tried::each(&changed, table, &asks, at, &mut memories)?;
            tried::each(&state[..at], table, &asks, at, &mut memories)?;
        }
    }
    memories.compare()
}

/// Prints the call if it gave a difference.
fn agree<T>(call: &impl Display, compared: Result<T, String>) -> bool {
    if let Err(difference) = &compared {
        println!("{difference}: {call}");
    }
    compared.is_ok()
}
