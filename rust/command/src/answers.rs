//! The answers of a run as a text: 0, 1 or Z for each accepted event, 64 to a line.

use crate::fault::Fault;
use crate::identity::InUse;
use crate::output::Output;
use crate::play::Watcher;
use sildrokk::Answer;
use std::path::Path;

/// How many letters a line has.
const LINE: u64 = 64;

/// A file of them.
pub struct Letters {
    output: Output,
    text: Vec<u8>,
    written: u64,
}

impl Letters {
    pub fn create(path: &Path, in_use: &mut InUse) -> Result<Letters, Fault> {
        Ok(Letters {
            output: Output::create(path, in_use, "the file of answers")?,
            text: Vec::new(),
            written: 0,
        })
    }

    /// Ends the last line.
    pub fn finish(mut self) -> Result<(), Fault> {
        if !self.written.is_multiple_of(LINE) {
            self.output.write(b"\n")?;
        }
        self.output.finish()
    }
}

impl Watcher for Letters {
    fn see(&mut self, _: &[u8], answers: &[u8], _: Option<u64>) -> Result<(), Fault> {
        self.text.clear();
        for number in answers {
            let answer = Answer::of_number(*number).expect("an answer is 0, 1 or 2");
            self.text.push(answer.letter() as u8);
            self.written += 1;
            if self.written.is_multiple_of(LINE) {
                self.text.push(b'\n');
            }
        }
        self.output.write(&self.text)
    }
}
