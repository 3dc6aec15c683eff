//! Every refusal, reached by the calls of a model. What is refused leaves state and memory as they were.

mod common;

use common::{power_on, Chip};
use sildrokk::{Model, Part, Ran, Refusal};
use std::collections::HashSet;
use std::error::Error;

const SPI: Part = Part::Mr45v032a;
const I2C: Part = Part::Ms85rc1mty;

/// A part with power or without, an event that it refuses, and why.
const EVENTS: [(Part, bool, &[u8], Refusal); 28] = [
    (SPI, false, &[0x00], Refusal::Kind),
    (SPI, false, &[0x06], Refusal::Kind),
    (SPI, true, &[0xff, 0x00], Refusal::Kind),
    (SPI, false, &[0x02, 0x03, 0, 0, 0], Refusal::Kind),
    (I2C, false, &[0x01, 0x03], Refusal::Kind),
    (SPI, false, &[0x01], Refusal::Incomplete),
    (I2C, false, &[0x02, 0x03, 0, 0], Refusal::Incomplete),
    (SPI, true, &[0x04], Refusal::Incomplete),
    (I2C, true, &[0x05], Refusal::Incomplete),
    (SPI, false, &[0x01, 0x20], Refusal::Sample),
    (SPI, true, &[0x04, 0xff], Refusal::Sample),
    (I2C, false, &[0x02, 0x08, 0, 0, 0], Refusal::Sample),
    (I2C, true, &[0x04, 0x08], Refusal::Sample),
    (I2C, false, &[0x02, 0x03, 2, 0, 0], Refusal::StartAddress),
    (I2C, false, &[0x02, 3, 0xff, 0, 0], Refusal::StartAddress),
    (SPI, false, &[0x05, 0x03], Refusal::ExpectedAnswer),
    (SPI, true, &[0x05, 0x03], Refusal::ExpectedAnswer),
    (I2C, true, &[0x05, 0xff], Refusal::ExpectedAnswer),
    (SPI, false, &[0x03], Refusal::Unpowered),
    (SPI, false, &[0x04, 0x19], Refusal::Unpowered),
    (I2C, false, &[0x03], Refusal::Unpowered),
    (I2C, false, &[0x04, 0x03], Refusal::Unpowered),
    (I2C, false, &[0x05, 0x02], Refusal::Unpowered),
    (SPI, true, &[0x01, 0x19], Refusal::Powered),
    (I2C, true, &[0x02, 0x03, 0, 0, 0], Refusal::Powered),
    (SPI, true, &[0x05, 0x00], Refusal::OtherAnswer),
    (SPI, true, &[0x05, 0x01], Refusal::OtherAnswer),
    (I2C, true, &[0x05, 0x00], Refusal::OtherAnswer),
];

/// A part, what it has taken before, how long input and output of a selection are, and why it is refused.
const SELECTIONS: [(Part, &[u8], [usize; 2], Refusal); 8] = [
    (I2C, &[], [1, 1], Refusal::Kind),
    (I2C, &[0x02, 0x03, 0, 0, 0], [1, 1], Refusal::Kind),
    (SPI, &[], [1, 1], Refusal::NotSelectable),
    (SPI, &[0x01, 0x18], [1, 1], Refusal::NotSelectable),
    (
        SPI,
        &[0x01, 0x19, 0x04, 0x18],
        [0, 0],
        Refusal::NotSelectable,
    ),
    (SPI, &[0x01, 0x19], [1, 0], Refusal::OutputLength),
    (SPI, &[0x01, 0x19], [0, 1], Refusal::OutputLength),
    (SPI, &[0x01, 0x19], [4, 5], Refusal::OutputLength),
];

/// In what a call may write, so that it shows if it does.
const LEFT: u8 = 0xa5;

fn by_event(chip: &mut Chip, event: &[u8]) -> Option<Refusal> {
    chip.model.event(event, &mut chip.memory).err()
}

fn by_run(chip: &mut Chip, event: &[u8]) -> Option<Refusal> {
    let ran = chip.model.run(event, u64::MAX, &mut chip.memory);
    assert_eq!((ran.count, ran.warning), (0, None));
    ran.refusal
}

fn by_replay(chip: &mut Chip, event: &[u8]) -> Option<Refusal> {
    let mut answers = [LEFT; 2];
    let memory = &mut chip.memory;
    let ran = chip.model.replay(event, u64::MAX, memory, &mut answers);
    assert_eq!((ran.count, ran.warning, answers), (0, None, [LEFT; 2]));
    ran.refusal
}

fn by_select(chip: &mut Chip, [input, output]: [usize; 2]) -> Option<Refusal> {
    let (input, mut output) = (vec![0x06; input], vec![LEFT; output]);
    let memory = &mut chip.memory;
    let driven = chip.model.select(true, &input, &mut output, memory);
    assert!(output.iter().all(|&byte| byte == LEFT), "{output:x?}");
    driven.err()
}

/// The call is refused for this, and the chip is left as it was.
fn refused(chip: &Chip, why: Refusal, call: impl FnOnce(&mut Chip) -> Option<Refusal>) {
    let mut after = chip.clone();
    assert_eq!(call(&mut after), Some(why));
    assert!(after == *chip, "changed by what is refused: {why}");
}

/// A chip that takes no call at all.
fn every_call_refused(chip: &Chip, why: Refusal) {
    for way in [by_event, by_run, by_replay] {
        refused(chip, why, |it| way(it, &[0x03]));
    }
    refused(chip, why, |it| by_select(it, [1, 1]));
}

/// A part just made, after these events.
fn after(part: Part, trace: &[u8]) -> Chip {
    let mut chip = Chip::new(part);
    let ran = chip.model.run(trace, u64::MAX, &mut chip.memory);
    assert_eq!(ran.refusal, None);
    chip
}

/// What a part takes that then has power, or not.
fn before(part: Part, powered: bool) -> Vec<u8> {
    match powered {
        true => power_on(part.bus()),
        false => Vec::new(),
    }
}

#[test]
fn events() {
    for (part, powered, event, why) in EVENTS {
        let chip = after(part, &before(part, powered));
        for way in [by_event, by_run, by_replay] {
            refused(&chip, why, |it| way(it, event));
        }
    }
}

/// A run of no bytes is a run, but no bytes are no event.
#[test]
fn no_event() {
    for powered in [false, true] {
        let chip = after(SPI, &before(SPI, powered));
        refused(&chip, Refusal::Incomplete, |it| by_event(it, &[]));
        assert_eq!(by_run(&mut chip.clone(), &[]), None);
    }
}

/// Where in a refused event the offset of a run points: at the field that is out of its range, else at
/// the event.
fn place(why: Refusal) -> u64 {
    match why {
        Refusal::Sample | Refusal::ExpectedAnswer => 1,
        Refusal::StartAddress => 2,
        _ => 0,
    }
}

/// The events before a refused one stand.
#[test]
fn events_in_a_run() {
    for (part, powered, event, why) in EVENTS {
        let accepted = before(part, powered);
        let mut chip = Chip::new(part);
        let trace = [&accepted, event].concat();
        let ran = chip.model.run(&trace, u64::MAX, &mut chip.memory);
        let expected = Ran {
            refusal: Some(why),
            count: powered.into(),
            offset: accepted.len() as u64 + place(why),
            warning: None,
        };
        assert_eq!(ran, expected, "{part} {trace:x?}");
        assert!(chip == after(part, &accepted), "{part} {trace:x?}");
    }
}

#[test]
fn selections() {
    for (part, trace, lengths, why) in SELECTIONS {
        refused(&after(part, trace), why, |it| by_select(it, lengths));
    }
}

/// Bytes that are no image are refused by every call, with a memory of any length.
#[test]
fn states() {
    for (at, byte) in [(0, 5), (1, 1), (2, 0x80), (3, 3), (4, 1), (31, 0xff)] {
        let Chip { model, memory } = Chip::new(SPI);
        let mut image = *model.image();
        image[at] = byte;
        for memory in [memory, Vec::new()] {
            let model = Model::from_image(image);
            let chip = Chip { model, memory };
            every_call_refused(&chip, Refusal::State);
        }
    }
}

#[test]
fn memory_lengths() {
    for part in [SPI, I2C] {
        for length in [0, part.size() - 1, part.size() + 1] {
            let mut chip = after(part, &power_on(part.bus()));
            chip.memory.resize(length, LEFT);
            every_call_refused(&chip, Refusal::MemoryLength);
        }
    }
}

/// What each part can be made of is in parts.rs.
#[test]
fn makings() {
    for (pins, bits) in [(1, 0), (0, 1), (u32::MAX, u32::MAX)] {
        assert_eq!(Model::new(SPI, pins, bits), Err(Refusal::Making));
    }
}

/// The tables and tests above have every refusal.
#[test]
fn none_is_left_out() {
    let of_tests = [Refusal::Making, Refusal::State, Refusal::MemoryLength];
    let events = EVENTS.map(|row| row.3);
    let selections = SELECTIONS.map(|row| row.3);
    let met: HashSet<Refusal> = [&of_tests[..], &events, &selections]
        .concat()
        .into_iter()
        .collect();
    assert_eq!(met, HashSet::from(Refusal::ALL));
}

#[test]
fn numbers() {
    for number in 0..=u8::MAX {
        let refusal = Refusal::of_number(number);
        assert_eq!(refusal.is_some(), (1..=13).contains(&number), "{number}");
        assert!(refusal.is_none_or(|it| it.number() == number && it as u8 == number));
    }
    assert!(Refusal::ALL.is_sorted_by_key(|it| it.number()));
}

/// A host may hand a refusal on as any error, and it still says which.
#[test]
fn words() {
    let words = Refusal::ALL.map(|refusal| {
        let error: Box<dyn Error> = refusal.into();
        assert_eq!(error.downcast_ref(), Some(&refusal));
        error.to_string()
    });
    assert!(words.iter().all(|it| !it.is_empty()), "{words:?}");
    assert_eq!(HashSet::from(words).len(), Refusal::ALL.len());
}
