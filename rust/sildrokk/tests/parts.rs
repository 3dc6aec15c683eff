//! The crate's table of parts, held against the archive: one that says something else of a part than
//! the archive has would make hosts lend the wrong memory, or refuse themselves what the part takes.

mod common;

use common::{power_on, Chip};
use sildrokk::{Bus, Model, NoSuchPart, Part, Refusal};
use std::error::Error;

/// Every number up to the largest makes a part, and the one above it does not.
fn up_to(part: Part, largest: u32, make: impl Fn(u32) -> Result<Model, Refusal>) {
    for number in 0..=largest {
        let model = make(number).unwrap_or_else(|refusal| panic!("{part} {number}: {refusal}"));
        assert_eq!((model.part(), model.powered()), (Some(part), false));
    }
    for number in [largest + 1, 256, u32::MAX] {
        assert_eq!(make(number), Err(Refusal::Making), "{part} {number}");
    }
}

#[test]
fn pins_and_bits() {
    for part in Part::ALL {
        up_to(part, part.max_pins(), |pins| Model::new(part, pins, 0));
        up_to(part, part.max_bits(), |bits| Model::new(part, 0, bits));
    }
}

/// What a part just made says to an event on a memory of this length.
fn on_memory(part: Part, length: usize) -> Option<Refusal> {
    let mut model = Chip::new(part).model;
    let event = model.event(&power_on(part.bus()), &mut vec![0; length]);
    event.err()
}

#[test]
fn sizes() {
    for part in Part::ALL {
        let size = part.size();
        assert_eq!(on_memory(part, size), None, "{part}");
        for length in [0, size - 1, size + 1] {
            let refusal = on_memory(part, length);
            assert_eq!(refusal, Some(Refusal::MemoryLength), "{part} {length}");
        }
    }
}

#[test]
fn buses() {
    for part in Part::ALL {
        for bus in [Bus::Spi, Bus::I2c] {
            let mut chip = Chip::new(part);
            let refusal = chip.model.event(&power_on(bus), &mut chip.memory).err();
            let other = (bus != part.bus()).then_some(Refusal::Kind);
            assert_eq!(refusal, other, "{part} {bus}");
        }
    }
}

#[test]
fn numbers() {
    for (number, part) in (0..).zip(Part::ALL) {
        assert_eq!((part.number(), part as u32), (number, number));
        assert_eq!(Part::of_number(number), Some(part));
        assert_eq!(number.to_string().parse(), Ok(part));
    }
    for number in (5..=256).chain([u32::MAX]) {
        assert_eq!(Part::of_number(number), None, "{number}");
        assert_eq!(number.to_string().parse::<Part>(), Err(NoSuchPart));
    }
}

/// The archive has no names; the variants' own are what they can be held against.
#[test]
fn names() {
    for part in Part::ALL {
        let name = part.name();
        assert_eq!(format!("{part:?}").to_uppercase(), name);
        assert_eq!(format!("{part:12}|"), format!("{name:12}|"));
        for word in [name.to_string(), name.to_lowercase(), format!("{part:?}")] {
            assert_eq!(word.parse(), Ok(part), "{word}");
        }
    }
    for word in ["", "00", "+1", "MR45V032", "MR45V032AA", " MR45V032A"] {
        assert_eq!(word.parse::<Part>(), Err(NoSuchPart), "{word:?}");
    }
}

/// Whoever asked for a part that there is not is told which there are.
#[test]
fn no_such_part() {
    let error: Box<dyn Error> = NoSuchPart.into();
    let words = error.to_string();
    for part in Part::ALL {
        let one = format!("{} ({})", part.number(), part.name());
        assert!(words.contains(&one), "{words}");
    }
}
