//! What the library says of a trace: as one run on the whole of it, and event by event.

use sildrokk::trace::Event;
use sildrokk::{Answer, Model, Part, Refusal};

/// A part as it is made, and the memory that it begins with.
#[derive(Clone)]
pub struct Made {
    pub part: Part,
    pub pins: u32,
    pub bits: u32,
    pub memory: Vec<u8>,
}

impl Made {
    /// With pins 0, saved bits 0 and zeros.
    pub fn of(part: Part) -> Made {
        Made {
            part,
            pins: 0,
            bits: 0,
            memory: vec![0; part.size()],
        }
    }

    pub fn with_memory(part: Part, memory: Vec<u8>) -> Made {
        Made {
            memory,
            ..Made::of(part)
        }
    }

    pub fn model(&self) -> Model {
        Model::new(self.part, self.pins, self.bits).expect("what the part can have")
    }

    /// The words of a command line that make the same part.
    pub fn words(&self) -> Vec<String> {
        let words = [
            self.part.name().into(),
            format!("--pins={}", self.pins),
            format!("--bits={}", self.bits),
        ];
        words.to_vec()
    }
}

/// A run on the whole trace at once.
pub struct Played {
    pub refusal: Option<Refusal>,
    pub count: u64,
    /// As a run gives it back: of some refusals where the bad field stands.
    pub offset: u64,
    /// The letters of the answers.
    pub answers: Vec<u8>,
    pub memory: Vec<u8>,
    /// What the part would keep if power were cut now.
    pub saved: u32,
}

pub fn played(made: &Made, trace: &[u8], quota: u64) -> Played {
    let (mut model, mut memory) = (made.model(), made.memory.clone());
    let mut numbers = vec![0; trace.len()];
    let ran = model.replay(trace, quota, &mut memory, &mut numbers);
    numbers.truncate(ran.count as usize);
    Played {
        refusal: ran.refusal,
        count: ran.count,
        offset: ran.offset,
        answers: numbers
            .iter()
            .map(|number| b"01Z"[usize::from(*number)])
            .collect(),
        saved: saved(model, &mut memory.clone()),
        memory,
    }
}

impl Played {
    /// 0, or the number of the refusal.
    pub fn number(&self) -> u8 {
        self.refusal.map_or(0, Refusal::number)
    }

    /// How many bytes the accepted events have, which is where the kind byte of the refused one stands:
    /// before the offset where that is the bad field's ('Numbers given back').
    pub fn taken(&self) -> u64 {
        match self.refusal {
            Some(Refusal::Sample | Refusal::ExpectedAnswer) => self.offset - 1,
            Some(Refusal::StartAddress) => self.offset - 2,
            _ => self.offset,
        }
    }

    /// The file of `--answers`: 64 letters to a line.
    pub fn answers_file(&self) -> Vec<u8> {
        let lines = self.answers.chunks(64);
        lines
            .flat_map(|line| line.iter().copied().chain([b'\n']))
            .collect()
    }
}

/// The saved bits that a power off would leave.
fn saved(mut model: Model, memory: &mut [u8]) -> u32 {
    if model.powered() {
        model.event(&[0x03], memory).expect("power off under power");
    }
    model.bits()
}

/// An accepted event and what came of it.
#[derive(Clone, Copy)]
pub struct Step {
    pub event: Event,
    /// Where its kind byte stands in the trace.
    pub offset: u64,
    pub answer: Answer,
    pub warning: bool,
}

/// The accepted events of a trace, each given to the model by itself.
pub fn steps(made: &Made, trace: &[u8]) -> Vec<Step> {
    let (mut model, mut memory) = (made.model(), made.memory.clone());
    let (mut steps, mut at) = (Vec::new(), 0);
    while let Some((event, length)) = Event::read(&trace[at..]) {
        let Ok(answered) = model.event(&trace[at..], &mut memory) else {
            break;
        };
        let (answer, warning) = (answered.answer, answered.warning);
        steps.push(Step {
            event,
            offset: at as u64,
            answer,
            warning,
        });
        at += length;
    }
    steps
}

/// The flagged events: the offset of each and its number among the events.
pub fn flagged(made: &Made, trace: &[u8]) -> Vec<(u64, u64)> {
    let numbered = steps(made, trace).into_iter().zip(0..);
    numbered
        .filter(|(step, _)| step.warning)
        .map(|(step, number)| (step.offset, number))
        .collect()
}
