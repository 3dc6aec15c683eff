//! Images of states that no trace reaches, what the model does from there, and images that are wrong
//! in one field.

mod common;
#[path = "common/images.rs"]
mod images;

use common::pins::Both;
use common::Bus;
use images::{dump, is_image, taken};
use twin::gen::Rng;
use twin::image::{decode, encode};
use twin::text::first_memory;
use twin::Model;

/// A bus whose model is that of a dump, with WP# and HOLD# high or WP low.
fn bus(text: &str) -> Bus {
    let model = taken(&dump(text));
    let memory = first_memory(model.part().size);
    let others = if model.part().number < 3 { 24 } else { 0 };
    Bus {
        model,
        memory,
        others,
    }
}

/// States in the ranges that no trace leads to.
const UNREACHED: [&str; 31] = [
    // A16 on part 3, which has none.
    "03 05 00 02 00 02 00 19  04 00 00 0f 01 00 00 00  00 1f ff 01",
    "03 00 00 02 07 00 00 1a  08 00 00 ff 01 00 00 ff",
    // Asleep at rest on parts that lack SLEEP, and in the midst of phases.
    "00 00 00 01 19 02 01 00",
    "02 00 02 01 18 02 01 10  07 00 00 7f",
    "01 00 00 01 10 01 01 20  07 00 00 00 01 ff ff 00",
    "01 00 8e 01 18 02 01 15  07 00 00 7f 01 ff ff 01",
    "01 00 00 01 18 02 01 32",
    // Driven at rest, while deaf, while bits are taken, while CS# is to rise.
    "00 00 00 01 19 00 00 00",
    "01 00 00 01 19 01 00 00",
    "01 00 00 01 18 01 00 01",
    "02 00 02 01 18 00 00 13  17 7f ff ff",
    "00 00 00 01 18 01 00 30",
    // Not at rest while CS# is 1, and at rest while it is 0.
    "00 00 00 01 19 02 00 10  07 00 00 7f",
    "02 00 8e 01 1f 02 00 33  00 00 00 00 00 00 00 ff",
    "01 00 00 01 01 00 00 22  07 00 00 00 00 00 00 03",
    "00 00 00 01 18 02 00 00",
    // Commands that the part lacks.
    "00 00 00 01 18 02 00 12  0f 00 7f ff",
    "00 00 00 01 18 02 00 14  07 00 00 7f 00 0f ff 00",
    "00 00 00 01 18 02 00 22  07 00 00 00 00 00 00 03",
    "00 00 00 01 18 02 00 32",
    "02 00 00 01 18 02 00 12  17 7f ff ff",
    "02 00 00 01 18 02 00 32",
    // A byte waits while CS# is 1, asleep, and with a bit driven.
    "01 00 02 01 19 02 00 34  00 00 00 00 01 ff ff ff",
    "01 00 8e 01 18 02 01 34  00 00 00 00 00 00 00 80",
    "01 00 00 01 00 00 00 34",
    // All zeros but the part and its power: selected and held, at rest, and driven low.
    "00 00 00 01",
    "03 00 00 02",
    // The part pulls at rest, while deaf, at another word and at the ninth clock of a byte it sends.
    "04 03 00 02 03 00 00 00",
    "04 03 00 02 03 00 00 01  00 00 00 00 00 00 00 00  01 ff ff 01",
    "03 07 00 02 01 00 00 18  08 00 00 ff",
    "04 00 00 02 00 00 00 28  08 00 00 00 01 ff ff 00",
];

#[test]
fn unreached_states_are_taken() {
    for text in UNREACHED {
        taken(&dump(text));
    }
}

/// An image, and bytes that are each wrong at some place of it.
type Wrong = (&'static str, usize, &'static [u8]);

const WRONG: [Wrong; 46] = [
    // Without power: part, pins, status.
    ("00", 0, &[5, 128, 255]),
    ("00", 1, &[1, 8]),
    ("02", 1, &[1, 255]),
    ("03 07", 1, &[8, 255]),
    ("04 03", 1, &[4, 7]),
    ("00", 2, &[0x80, 0x08, 0x04, 0x8c, 0x02]),
    ("01 00 8c", 2, &[0x8e, 0x02, 0x01, 0x10, 0x20, 0x40, 0x9c]),
    ("03", 2, &[0x80, 0x08, 0x04, 0x02]),
    // Power, by the bus.
    ("00", 3, &[2, 3, 255]),
    ("04", 3, &[1, 3, 255]),
    // Under power: status, last, driven, asleep, buffer, used.
    ("00 00 8e 01 19 02", 2, &[0x8f, 0x9e, 0xae, 0xce]),
    ("00 00 00 01 1f 02", 4, &[32, 255]),
    ("00 00 00 01 19 02", 5, &[3, 255]),
    ("00 00 00 01 19 02", 6, &[2, 255]),
    ("04 00 00 02 07 02", 2, &[0x02, 0x04, 0x08, 0x80]),
    ("04 00 00 02 07 02", 4, &[8, 31]),
    ("04 00 00 02 03 02", 5, &[1, 3]),
    ("04 00 00 02 03 02", 6, &[1]),
    (
        "04 00 00 02 03 02 00 00  00 00 00 00 00 00 00 00  01 ff ff 01",
        16,
        &[2, 3],
    ),
    (
        "03 00 00 02 03 02 00 00  00 00 00 00 00 00 00 00  00 1f ff 01",
        17,
        &[0x20, 0x3f],
    ),
    ("04 00 00 02 03 02", 19, &[2, 255]),
    // Phases of the other bus, and of none.
    (
        "00 00 00 01 19 02",
        7,
        &[
            0x02, 0x0f, 0x17, 0x18, 0x19, 0x1a, 0x1b, 0x1f, 0x23, 0x28, 0x34, 0x40,
        ],
    ),
    (
        "04 00 00 02 03 02",
        7,
        &[
            0x02, 0x10, 0x11, 0x12, 0x13, 0x14, 0x15, 0x16, 0x17, 0x1c, 0x20, 0x29, 0x30, 0x33,
            0x34,
        ],
    ),
    // A byte that waits is part 1's alone.
    ("01 00 00 01 19 02", 7, &[0x23, 0x35, 0x38, 0x40]),
    ("02 00 00 01 19 02", 7, &[0x23, 0x34, 0x35, 0x40]),
    ("01 00 02 01 1e 02 00 34", 0, &[0, 2, 3, 4, 5]),
    // Counts.
    ("01 00 02 01 1e 02 00 34", 8, &[1, 7, 255]),
    ("00 00 00 01 18 02 00 10  07 00 00 7f", 8, &[6, 8, 255]),
    ("00 00 00 01 18 02 00 11  0f 00 7f ff", 8, &[14, 16, 24]),
    ("01 00 00 01 18 02 00 13  17 7f ff ff", 8, &[22, 24, 32]),
    ("01 00 00 01 18 02 00 21  07", 8, &[8]),
    ("00 00 00 01 18 02 00 33", 8, &[1]),
    ("04 00 00 02 00 02 00 18  08 00 00 ff", 8, &[7, 9]),
    ("04 00 00 02 00 02 00 28  08", 8, &[9]),
    // Values.
    ("01 00 02 01 1e 02 00 34", 11, &[1, 255]),
    ("00 00 00 01 18 02 00 16  03 00 00 07", 11, &[8, 255]),
    ("00 00 00 01 18 02 00 20  03", 11, &[1]),
    ("04 00 00 02 00 02 00 28  03", 11, &[1]),
    // Addresses.
    (
        "01 00 02 01 1e 02 00 34  00 00 00 00 01 ff ff 00",
        12,
        &[2, 3, 255],
    ),
    (
        "00 00 00 01 18 02 00 14  00 00 00 00 00 0f ff 00",
        13,
        &[0x10, 0xff],
    ),
    ("02 00 00 01 18 02 00 20  00 00 00 00 03 ff ff 00", 12, &[4]),
    ("04 00 00 02 00 02 00 19  00 00 00 00 01 00 00 00", 14, &[1]),
    (
        "03 00 00 02 00 02 00 1a  00 00 00 00 01 00 00 00",
        12,
        &[2, 3],
    ),
    // Details.
    ("00 00 02 01 18 02 00 15  00 00 00 00 00 00 00 01", 15, &[2]),
    ("01 00 00 01 18 02 00 22  00 00 00 00 00 00 00 03", 15, &[4]),
    ("04 00 00 02 00 02 00 19  00 00 00 00 01 00 00 00", 15, &[1]),
];

#[test]
fn images_wrong_in_one_field_are_refused() {
    for (text, at, values) in WRONG {
        let image = dump(text);
        taken(&image);
        for &value in values {
            let mut wrong = image;
            wrong[at] = value;
            assert_eq!(decode(&wrong), None, "{wrong:02x?}");
        }
    }
}

/// An image, and the bytes that it does not use.
const UNUSED: [(&str, &[usize]); 18] = [
    ("00", &[4, 5, 6, 7, 8, 11, 14, 15, 18, 19, 20, 31]),
    ("01 00 8c", &[4, 5, 6, 7, 8, 11, 14, 15, 18, 19, 20, 31]),
    ("04 03", &[4, 5, 6, 7, 8, 11, 14, 15, 18, 19, 20, 31]),
    (
        "00 00 02 01 19 02 00 00",
        &[8, 9, 10, 11, 12, 13, 14, 15, 16, 17, 18, 19, 20, 31],
    ),
    ("00 00 00 01 18 02 00 01", &[8, 11, 14, 15, 18, 19]),
    ("00 00 00 01 18 02 00 10 07", &[12, 13, 14, 15, 18, 19]),
    ("01 00 00 01 18 02 00 12 17", &[12, 13, 14, 15, 18, 19]),
    ("01 00 00 01 18 02 00 14 07", &[15, 18, 19, 25]),
    ("01 00 00 01 18 02 00 16 07", &[14, 15, 18, 19]),
    ("01 00 00 01 18 02 00 20 07", &[9, 10, 11, 15, 18, 19]),
    ("01 00 00 01 18 02 00 22 07", &[9, 10, 11, 12, 13, 14, 19]),
    ("01 00 00 01 18 02 00 30", &[8, 11, 14, 15]),
    ("01 00 00 01 18 02 00 33", &[8, 11, 14]),
    (
        "01 00 02 01 1e 02 00 34",
        &[8, 9, 10, 11, 16, 17, 18, 19, 20, 25, 31],
    ),
    ("03 00 00 02 03 02 00 00", &[6, 8, 11, 14, 15, 20, 31]),
    ("03 00 00 02 03 02 00 18 08", &[6, 9, 10, 12, 14, 15, 20]),
    ("03 00 00 02 03 02 00 1b 08", &[6, 9, 10, 15, 20]),
    ("03 00 00 02 03 02 00 28 08", &[6, 9, 10, 11, 15, 20, 31]),
];

#[test]
fn unused_bytes_are_zero() {
    for (text, places) in UNUSED {
        let image = dump(text);
        taken(&image);
        for &at in places {
            let mut wrong = image;
            wrong[at] = 1;
            assert_eq!(decode(&wrong), None, "{at}: {wrong:02x?}");
        }
    }
}

/// FSTRD on part 0: an address of its sixteen bits, eight bits more, then the memory.
#[test]
fn a_command_that_the_part_lacks() {
    let mut bus = bus("00 00 00 01 18 02 00 12");
    assert_eq!(bus.bytes(&[0xff, 0xfe]), [2; 16]);
    let answers = bus.bytes(&[0; 3]);
    let shown = |byte: u8| (0..8).map(move |at| byte >> (7 - at) & 1);
    let expected: Vec<u8> = shown(bus.memory[0xffe])
        .chain(shown(bus.memory[0xfff]))
        .collect();
    assert_eq!(answers[..7], [2; 7]);
    assert_eq!(answers[7..23], expected);
    bus.deselect();
    // And SLEEP, after which a selection is left out.
    let mut bus = self::bus("02 00 00 01 18 02 00 32");
    bus.deselect();
    assert_eq!(bus.ask(&[5], 1), [None]);
    assert_eq!(bus.status(), 0);
}

/// A sleep in the midst of a command is over as CS# rises, whose effect it has.
#[test]
fn asleep_in_a_command() {
    let mut bus = bus("01 00 00 01 18 02 01 30");
    bus.deselect();
    assert_eq!(bus.status(), 2);
    let mut bus = self::bus("01 00 02 01 18 02 01 15  00 00 00 00 01 ff ff 00");
    bus.bytes(&[0x11, 0x22]);
    bus.deselect();
    assert_eq!((bus.memory[0x1ffff], bus.memory[0]), (0x11, 0x22));
    assert_eq!(bus.status(), 0);
}

/// What is driven shows while the part is selected and not held; a new selection drives nothing.
#[test]
fn driven_before_the_output() {
    let mut bus = bus("00 00 00 01 18 01 00 10  07 00 00 02");
    assert_eq!(bus.model.answer(), 1);
    // In a hold, and behind it.
    assert_eq!(bus.event(&[4, 0x08]), 2);
    assert_eq!(bus.event(&[4, 0x18]), 1);
    // The eighth bit makes RDSR, and the fall behind it shows SRWD.
    assert_eq!(bus.event(&[4, 0x1e]), 1);
    assert_eq!(bus.event(&[4, 0x18]), 0);
    for driven in ["00", "01"] {
        let mut bus = self::bus(&format!("00 00 00 01 19 {driven}"));
        assert_eq!(bus.model.answer(), 2);
        assert_eq!(bus.spi_sample(0, 0, 0), 2);
        assert_eq!(bus.bytes(&[5])[..7], [2; 7]);
    }
}

/// A phase that stands while CS# is 1 is forgotten as it falls.
#[test]
fn a_phase_without_a_selection() {
    let mut bus = bus("00 00 02 01 19 02 00 33  00 00 00 00 00 00 00 ff");
    bus.select();
    bus.deselect();
    assert_eq!(bus.status(), 2);
    // CS# 0 at rest: clocks do nothing, and CS# rising ends nothing.
    let mut bus = self::bus("00 00 02 01 18 02 00 00");
    assert_eq!(bus.bytes(&[4, 5]), [2; 16]);
    bus.deselect();
    assert_eq!(bus.status(), 2);
}

/// On part 3 A16 falls away modulo the size.
#[test]
fn a16_of_part_3() {
    let mut bus = bus("03 00 00 02 00 02 00 19  00 00 00 00 01 00 00 00");
    assert!(bus.give(0xff));
    assert_eq!(encode(&bus.model)[12..16], [1, 0, 0, 0xff]);
    assert!(bus.give(0xfe));
    assert!(bus.give(0x77));
    assert_eq!(bus.memory[0x1ffe], 0x77);
    assert_eq!(
        encode(&bus.model)[12..20],
        [0, 0x1f, 0xff, 0, 0, 0x1f, 0xfe, 1]
    );
}

/// The index of the identity stays behind the last byte, and its count goes on.
#[test]
fn past_the_identity() {
    let mut bus = bus("01 00 00 01 18 02 00 22  07 00 00 00 00 00 00 02");
    bus.bit(0);
    assert_eq!(encode(&bus.model)[8..16], [0, 0, 0, 0, 0, 0, 0, 3]);
    assert_eq!(bus.bytes(&[0]), [2; 8]);
    bus.bit(0);
    assert_eq!(encode(&bus.model)[8..16], [1, 0, 0, 0, 0, 0, 0, 3]);
}

/// From any image with CS# 1 a selection as bytes is its pin samples.
#[test]
fn bytes_are_pins_from_any_image() {
    let mut rng = Rng::new(46);
    for at in 0..1500_u32 {
        let part = (at % 3) as u8;
        let mut image = images::draw(&mut rng, part);
        image[4] |= 1;
        let model = taken(&image);
        let memory = first_memory(model.part().size);
        let input = twin::gen::selection_bytes(&mut rng, u32::from(part));
        Both::new(&model, &memory).agree(rng.chance(500), &input);
    }
}

/// From any image each sample leads to an image, and a power off to that of a making.
#[test]
fn any_image_leads_to_images() {
    let mut rng = Rng::new(47);
    for at in 0..2000_u32 {
        let part = (at % 5) as u8;
        let mut model = taken(&images::draw(&mut rng, part));
        let mut memory = first_memory(model.part().size);
        for _ in 0..40 {
            let sample = rng.byte() & model.part().max_sample();
            let (number, answer, _) = model.event(&[4, sample], &mut memory);
            assert_eq!((number, answer), (0, model.answer()));
            let image = encode(&model);
            assert!(is_image(&image), "{image:02x?}");
            assert_eq!(decode(&image).as_ref(), Some(&model));
        }
        assert_eq!(model.event(&[3], &mut memory), (0, 2, false));
        let bits = u32::from(model.bits());
        let made = Model::make(u32::from(part), model.pins(), bits);
        assert_eq!((0, model), made);
    }
}
