//! The image of a state: each state that is reached has one, and is the one that it gives back; and
//! each buffer is an image or not by the tables of docs/IMAGE.md, whether or not a trace leads there.

mod common;
#[path = "common/images.rs"]
mod images;

use common::Bus;
use images::{dump, is_image, taken, Image};
use twin::gen::{self, Case, Rng};
use twin::image::{decode, encode, LENGTH};
use twin::text::first_memory;
use twin::trace::events;
use twin::{Model, Ran};

/// A bus whose model is that of an image.
fn bus(image: &Image, others: u8) -> Bus {
    let model = taken(image);
    let memory = first_memory(model.part().size);
    Bus {
        model,
        memory,
        others,
    }
}

fn number(image: &Image, at: usize) -> u32 {
    u32::from_be_bytes([0, image[at], image[at + 1], image[at + 2]])
}

#[test]
fn the_dump_of_a_write() {
    let image = dump(
        "00 00 02 01 1c 02 00 15  03 00 00 05 00 01 23 00
         00 00 00 00 00 00 00 00  00 00 00 00 00 00 00 00",
    );
    let mut reached = Bus::spi(0, 0);
    reached.command(&[6]);
    reached.select();
    reached.bytes(&[2, 0x01, 0x23]);
    reached.bits(&[1, 0, 1]);
    assert_eq!(encode(&reached.model), image);
    let mut bus = bus(&image, 24);
    assert_eq!(bus.model, reached.model);
    let model = &bus.model;
    assert_eq!((model.part().number, model.pins(), model.bits()), (0, 0, 0));
    assert_eq!((model.powered(), model.answer()), (true, 2));
    bus.bits(&[0, 0, 1, 1]);
    assert_eq!(bus.memory, reached.memory);
    bus.bit(0);
    assert_eq!(bus.memory[0x123], 0b1010_0110);
    bus.bytes(&[0x5a]);
    assert_eq!(bus.memory[0x124], 0x5a);
    bus.deselect();
    assert_eq!(bus.status(), 0);
}

#[test]
fn the_dump_of_a_read() {
    let image = dump(
        "04 02 00 02 02 02 00 28  08 00 00 00 01 ff ff 00
         01 ff fe 01 00 00 00 00  00 00 00 00 00 00 00 00",
    );
    let mut reached = Bus::i2c(4, 2, 0x1fffe);
    reached.start();
    assert!(reached.give(0xab));
    assert_eq!(reached.take(true), reached.memory[0x1fffe]);
    for _ in 0..8 {
        reached.clock(1);
    }
    assert_eq!(encode(&reached.model), image);
    let mut bus = bus(&image, 0);
    assert_eq!(bus.model, reached.model);
    let model = &bus.model;
    assert_eq!((model.part().number, model.pins(), model.bits()), (4, 2, 0));
    assert_eq!((model.powered(), model.answer()), (true, 2));
    // The master asks for more: the byte behind the top is that at 0.
    assert_eq!(bus.clock(0), 0);
    assert_eq!(number(&encode(&bus.model), 16), 0x1ffff);
    assert_eq!(bus.take(false), bus.memory[0]);
}

/// The bytes of phase, count, value and address.
fn phase(bus: &Bus) -> [u8; 8] {
    encode(&bus.model)[7..15].try_into().expect("eight bytes")
}

/// A part that comes up with CS# 0 is deaf, else at rest.
#[test]
fn at_power_on() {
    for (sample, number) in [(0x18, 1), (0x00, 1), (0x19, 0), (0x01, 0)] {
        let mut bus = Bus::make(1, 0, 5);
        assert_eq!(encode(&bus.model), dump("01 00 84"));
        bus.event(&[1, sample]);
        let head = [1, 0, 0x84, 1, sample, 2, 0, number];
        assert_eq!(encode(&bus.model)[..8], head);
    }
    let bus = Bus::i2c(4, 3, 0x12345);
    let text = "04 03 00 02 03 02 00 00  00 00 00 00 00 00 00 00  01 23 45 00";
    assert_eq!(encode(&bus.model), dump(text));
}

/// A word is whole with its ninth rise, whether it is the part's or not. The buffer stays as it is,
/// also where A16 of a read word takes the place of its bit 16.
#[test]
fn words() {
    for (word, after) in [
        (0xa1, [0x28, 0, 0, 0, 0, 0x00, 0xff, 0xff]),
        (0xa3, [0x28, 0, 0, 0, 0, 0x01, 0xff, 0xff]),
        (0xa0, [0x19, 0, 0, 0, 0, 0, 0, 0]),
        (0xa2, [0x19, 0, 0, 0, 0, 1, 0, 0]),
        (0xa4, [0x01, 0, 0, 0, 0, 0, 0, 0]),
    ] {
        let mut bus = Bus::i2c(4, 0, 0x0ffff);
        bus.start();
        assert_eq!(phase(&bus), [0x18, 0, 0, 0, 0, 0, 0, 0]);
        for place in (0..8).rev() {
            bus.clock(word >> place & 1);
        }
        assert_eq!(phase(&bus), [0x18, 8, 0, 0, word, 0, 0, 0]);
        assert_eq!(bus.clock(1), u8::from(word == 0xa4));
        assert_eq!(phase(&bus), after);
        assert_eq!(encode(&bus.model)[16..20], [0, 0xff, 0xff, 0]);
    }
}

/// The count of what is shown goes with the rises: a fall leaves it, and so does another behind a
/// rise that is not counted.
#[test]
fn shown_bits_are_counted_by_rises() {
    let mut bus = Bus::spi(0, 0);
    bus.select();
    bus.bytes(&[3, 0x02, 0x34]);
    assert_eq!(phase(&bus), [0x20, 0, 0, 0, 0, 0, 0x02, 0x34]);
    bus.bits(&[1, 1, 1]);
    assert_eq!(phase(&bus), [0x20, 3, 0, 0, 0, 0, 0x02, 0x34]);
    // SCK rises in a hold and falls behind it.
    for sample in [0x08, 0x0a, 0x1a, 0x18] {
        bus.event(&[4, sample]);
    }
    assert_eq!(phase(&bus), [0x20, 3, 0, 0, 0, 0, 0x02, 0x34]);
    bus.bits(&[1, 1, 1, 1, 1]);
    assert_eq!(phase(&bus), [0x20, 0, 0, 0, 0, 0, 0x02, 0x35]);
}

/// Some cases of each part.
fn cases(seed: u64, each: usize) -> impl Iterator<Item = (Rng, Case)> {
    let mut rng = Rng::new(seed);
    (0..5 * each).map(move |at| {
        let case = gen::case_of(&mut rng, at as u32 % 5);
        (rng.clone(), case)
    })
}

fn made(case: &Case) -> (Model, Vec<u8>) {
    let (_, model) = Model::make(case.part, case.pins, case.bits);
    let memory = first_memory(model.part().size);
    (model, memory)
}

/// After a making and after every event. All phases of both buses are among the states.
#[test]
fn reached_states_go_round() {
    let mut phases = [[false; 256]; 2];
    for (_, case) in cases(41, 80) {
        let (mut model, mut memory) = made(&case);
        assert_eq!(decode(&encode(&model)), Some(model.clone()));
        for event in events(&case.trace) {
            model.event(event, &mut memory);
            let image = encode(&model);
            assert!(is_image(&image), "{image:02x?}");
            assert_eq!(decode(&image).as_ref(), Some(&model));
            phases[usize::from(case.part > 2)][usize::from(image[7])] = true;
        }
    }
    let seen = phases.map(|of_bus| of_bus.iter().filter(|&&seen| seen).count());
    assert_eq!(seen, [17, 7]);
}

/// The states of the parts that a trace leaves somewhere within it.
fn reached(seed: u64, each: usize) -> Vec<Image> {
    let left = |(mut rng, case): (Rng, Case)| {
        let (mut model, mut memory) = made(&case);
        let count = 1 + rng.below(events(&case.trace).count() as u64 + 1);
        model.run(&case.trace, count, &mut memory, &mut Vec::new());
        encode(&model)
    };
    cases(seed, each).map(left).collect()
}

/// Every value in every byte: what is taken is given back, and is what the tables have; how many of
/// the changed ones are.
fn every_byte(image: &Image) -> usize {
    let mut count = 0;
    for at in 0..LENGTH {
        for value in 0..=255 {
            let mut other = *image;
            other[at] = value;
            let model = decode(&other);
            assert_eq!(model.is_some(), is_image(&other), "{other:02x?}");
            if let Some(model) = model {
                assert_eq!(encode(&model), other);
                count += usize::from(other != *image);
            }
        }
    }
    count
}

#[test]
fn every_byte_of_reached_images() {
    let images = reached(42, 12);
    assert!(images.len() >= 50);
    let other: usize = images.iter().map(every_byte).sum();
    assert!(other > 1000, "{other} of the changed ones are images");
}

#[test]
fn every_byte_of_drawn_images() {
    let mut rng = Rng::new(43);
    for part in 0..5 {
        for _ in 0..60 {
            let image = images::draw(&mut rng, part);
            taken(&image);
            every_byte(&image);
        }
    }
}

/// A byte that waits, not held and held, at the top and at 0, and one that will not be stored.
#[test]
fn every_byte_of_waiting_images() {
    for text in [
        "01 00 02 01 1e 02 00 34  00 00 00 00 01 ff ff ff",
        "01 00 02 01 0a 02 00 34  00 00 00 00 00 00 00 00",
        "01 00 8c 01 18 02 00 34  00 00 00 00 01 23 45 67",
    ] {
        let image = dump(text);
        taken(&image);
        every_byte(&image);
    }
}

#[test]
fn only_one_length() {
    let under_power = encode(&Bus::spi(0, 0).model);
    for image in [under_power, dump("00"), dump("04 02 00 02 02 02")] {
        let mut long = image.to_vec();
        long.extend([0; 8]);
        for length in 0..=40 {
            let whole = length == LENGTH;
            assert_eq!(decode(&long[..length]).is_some(), whole, "{length}");
        }
    }
}

/// All that a trace gives from here on: the run, its answers, and the state and memory left.
fn rest(mut model: Model, mut memory: Vec<u8>, trace: &[u8]) -> (Ran, Vec<u8>, Model, Vec<u8>) {
    let mut answers = Vec::new();
    let ran = model.run(trace, u64::MAX, &mut memory, &mut answers);
    (ran, answers, model, memory)
}

/// A trace cut anywhere: the model of the image goes on as the one that was cut.
#[test]
fn an_image_goes_on() {
    for (mut rng, case) in cases(44, 60) {
        for _ in 0..4 {
            let (mut model, mut memory) = made(&case);
            let count = rng.below(events(&case.trace).count() as u64 + 1);
            let ran = model.run(&case.trace, count, &mut memory, &mut Vec::new());
            let behind = &case.trace[ran.offset as usize..];
            let image = taken(&encode(&model));
            let cut = rest(model, memory.clone(), behind);
            assert!(rest(image, memory, behind) == cut, "{case:?}, {count}");
        }
    }
}

/// The same, flag by flag and cell by cell, with each event on a new image.
#[test]
fn every_event_by_images() {
    for (_, case) in cases(45, 12) {
        let (mut model, mut memory) = made(&case);
        let (mut image, mut cells) = (encode(&model), memory.clone());
        for event in events(&case.trace) {
            let mut other = taken(&image);
            let given = model.event(event, &mut memory);
            assert_eq!(other.event(event, &mut cells), given);
            image = encode(&other);
            assert_eq!(image, encode(&model));
        }
        assert!(memory == cells);
    }
}
