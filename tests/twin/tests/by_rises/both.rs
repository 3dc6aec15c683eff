//! The twin and the reading side by side.

use crate::reading::Reading;
use crate::tally::Tally;
use twin::gen::Case;
use twin::image::encode;
use twin::text::{first_memory, hex};
use twin::Model;

/// Each with a memory of its own.
pub struct Both<'a> {
    case: &'a Case,
    /// How much of the trace is behind.
    pub at: usize,
    model: Model,
    reading: Reading,
    by_model: Vec<u8>,
    by_reading: Vec<u8>,
}

impl Both<'_> {
    pub fn make(case: &Case) -> Both<'_> {
        let (number, model) = Model::make(case.part, case.pins, case.bits);
        let (told, reading) = Reading::make(case.part, case.pins, case.bits);
        assert_eq!(number, told, "making of {case:?}");
        let memory = first_memory(reading.size());
        Both {
            case,
            at: 0,
            model,
            reading,
            by_model: memory.clone(),
            by_reading: memory,
        }
    }

    /// One event from the front of the rest of the trace: number, answer, flag, the byte stored, the
    /// present answer, the bits, what a cut leaves, and the byte that waits.
    pub fn event(&mut self, tally: &mut Tally) {
        let bytes = &self.case.trace[self.at..];
        let given = self.reading.event(bytes, &mut self.by_reading);
        let told = self.model.event(bytes, &mut self.by_model);
        let ours = (given.number, given.answer, given.step.flag);
        assert_eq!(told, ours, "{}", self.about());
        if let Some(at) = given.step.stored {
            assert_eq!(self.by_model[at], self.by_reading[at], "{}", self.about());
        }
        let (model, reading) = (&self.model, &self.reading);
        let told = (model.powered(), model.answer(), model.bits());
        let ours = (reading.powered(), reading.answer(), reading.bits());
        assert_eq!(told, ours, "{}", self.about());
        self.compare_cut(tally);
        self.compare_waiting();
        tally.enter(&given);
    }

    /// A cut on a copy leaves the model as made, with the saved bits of the reading.
    fn compare_cut(&mut self, tally: &mut Tally) {
        let reading = &self.reading;
        let saved = reading.bits_after_cut();
        let mut cut = self.model.clone();
        cut.event(&[3], &mut self.by_model);
        let made = Model::make(reading.number, reading.pins, u32::from(saved));
        assert_eq!((0, cut), made, "cut after {}", self.about());
        if reading.powered() {
            tally.enter_cut(reading.bits(), saved);
        }
    }

    /// The byte that waits stands in the image with its address, and its cell is as it was, also after
    /// the cut.
    fn compare_waiting(&self) {
        let waiting = self.reading.waiting();
        let told = waits(&encode(&self.model));
        assert_eq!(told, waiting, "waiting: {}", self.about());
        if let Some((at, _)) = waiting {
            assert_eq!(self.by_model[at], self.by_reading[at], "{}", self.about());
        }
    }

    pub fn compare_memory(&self) {
        assert!(self.by_model == self.by_reading, "memory: {}", self.about());
    }

    /// Where the two differ.
    fn about(&self) -> String {
        let Case {
            part, pins, bits, ..
        } = self.case;
        let trace = hex(&self.case.trace);
        format!("byte {} of {part} {pins} {bits} {trace}", self.at)
    }
}

/// Address and byte of an image in which a byte waits.
fn waits(image: &[u8; 32]) -> Option<(usize, u8)> {
    let address = u32::from_be_bytes([0, image[12], image[13], image[14]]);
    (image[7] == 0x34).then_some((address as usize, image[15]))
}
