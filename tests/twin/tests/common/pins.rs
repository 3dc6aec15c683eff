//! A selection by pins on the twin, and what it gives beside the byte path.

use twin::pins::{bits_back, bytes_back, spelled};
use twin::text::OUTPUT_BEFORE;
use twin::{Model, Selected, NOTHING};

/// The spelled samples one by one.
pub fn by_pins(
    model: &mut Model,
    memory: &mut [u8],
    wp: bool,
    input: &[u8],
) -> (Vec<u8>, Selected) {
    let trace = spelled(wp, input);
    let answers: Vec<u8> = trace
        .chunks(2)
        .map(|event| match model.event(event, memory) {
            (0, answer, flag) => {
                assert!(!flag, "a selection as bytes has no flag");
                answer
            }
            (number, ..) => panic!("{number} for {event:?}"),
        })
        .collect();
    assert_eq!(answers.len(), 2 + 16 * input.len());
    let bits = bits_back(&answers, input.len());
    let (output, selected) = bytes_back(&bits);
    assert_one_stretch(&bits, &selected);
    (output, selected)
}

/// A byte's bits are driven all together or none, and the driven bytes stand in one stretch.
fn assert_one_stretch(bits: &[u8], selected: &Selected) {
    let stretch = selected.first..selected.first + selected.count;
    for (eight, at) in bits.chunks(8).zip(0..) {
        let driven = stretch.contains(&at);
        let alike = eight.iter().all(|&bit| (bit != NOTHING) == driven);
        assert!(alike, "byte {at} of {selected:?}: {eight:?}");
    }
}

/// A selection taken by bytes and by pins, from the same model and memory each time.
pub struct Both {
    model: Model,
    memory: Vec<u8>,
    by_bytes: Vec<u8>,
    by_pins: Vec<u8>,
}

impl Both {
    pub fn new(model: &Model, memory: &[u8]) -> Both {
        Both {
            model: model.clone(),
            memory: memory.to_vec(),
            by_bytes: memory.to_vec(),
            by_pins: memory.to_vec(),
        }
    }

    /// All that the two give must be alike: the model, the memory, the bytes and the figures.
    pub fn agree(&mut self, wp: bool, input: &[u8]) -> (Vec<u8>, Selected) {
        let (mut bytes, mut pins) = (self.model.clone(), self.model.clone());
        let mut output = vec![OUTPUT_BEFORE; input.len()];
        let selected = bytes.select(wp, input, &mut output, &mut self.by_bytes);
        let spelled = by_pins(&mut pins, &mut self.by_pins, wp, input);
        let about = || format!("{input:02x?}, WP# {wp}, on {:?}", self.model);
        assert_eq!((&output, selected), (&spelled.0, spelled.1), "{}", about());
        assert_eq!(bytes, pins, "{}", about());
        assert!(self.by_bytes == self.by_pins, "memory: {}", about());
        self.again();
        (output, selected)
    }

    /// Puts the memory back where a selection changed it.
    fn again(&mut self) {
        if self.by_bytes != self.memory {
            self.by_bytes.copy_from_slice(&self.memory);
            self.by_pins.copy_from_slice(&self.memory);
        }
    }
}
