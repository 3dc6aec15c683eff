//! A trace as it is made of the samples of a capture.

use super::map::Seen;
use super::turns::Turns;
use crate::fault::Fault;
use sildrokk::trace::{spi, Event};
use sildrokk::{Answer, Bus, Model, Part};

/// Where expected answers are put in, if the part's output is seen.
pub enum Answers {
    None,
    /// On SPI where the model drives SO.
    Spi(Box<Chip>),
    /// On I2C by whose turn it is.
    I2c(Turns),
}

/// A model that is played along. Whether it drives SO does not hang on what its memory holds.
pub struct Chip {
    model: Model,
    memory: Vec<u8>,
    answer: Answer,
}

/// What was made of how many samples.
#[derive(Default)]
pub struct Tally {
    pub samples: u64,
    pub power_ons: u64,
    pub power_offs: u64,
    pub kept: u64,
    pub answers: u64,
    /// Of the trace.
    pub bytes: u64,
}

pub struct Writer {
    part: Part,
    start: u32,
    answers: Answers,
    /// The last sample of the capture; none before the first.
    last: Option<Seen>,
    pub tally: Tally,
    /// What is written and not yet taken away.
    trace: Vec<u8>,
}

impl Writer {
    pub fn new(part: Part, start: u32, answers: Answers) -> Writer {
        Writer {
            part,
            start,
            answers,
            last: None,
            tally: Tally::default(),
            trace: Vec::new(),
        }
    }

    /// So many samples more, all like this one.
    pub fn seen(&mut self, seen: Seen, count: u64) -> Result<(), Fault> {
        self.tally.samples += count;
        let powered = self.last.is_some_and(|it| it.power);
        match (self.last, seen.power) {
            (_, true) if !powered => {
                self.tally.power_ons += 1;
                self.event(self.power_on(seen.sample))?;
            }
            (Some(last), true) if last.sample != seen.sample => self.sample(last, seen)?,
            (_, false) if powered => {
                self.tally.power_offs += 1;
                self.event(Event::PowerOff)?;
                if let Answers::I2c(turns) = &mut self.answers {
                    turns.stop();
                }
            }
            _ => {}
        }
        self.last = Some(seen);
        Ok(())
    }

    /// Takes away what is written of the trace.
    pub fn taken(&mut self) -> Vec<u8> {
        self.tally.bytes += self.trace.len() as u64;
        std::mem::take(&mut self.trace)
    }

    fn power_on(&self, sample: u8) -> Event {
        let start = self.start;
        match self.part.bus() {
            Bus::Spi => Event::SpiPowerOn { sample },
            Bus::I2c => Event::I2cPowerOn { sample, start },
        }
    }

    /// A sample under power that is another than the last, and before it the answer that is expected
    /// until then: on SPI at a rise of SCK, where a host takes what SO shows; on I2C at a fall of SCL.
    fn sample(&mut self, last: Seen, seen: Seen) -> Result<(), Fault> {
        let rises = last.sample & spi::SCK == 0 && seen.sample & spi::SCK != 0;
        let expected = match &mut self.answers {
            Answers::Spi(chip) if rises => chip.expected(last.output),
            Answers::I2c(turns) => turns.sample(last, seen),
            _ => None,
        };
        self.expect(expected);
        self.tally.kept += 1;
        self.event(Event::Sample(seen.sample))
    }

    fn expect(&mut self, answer: Option<Answer>) {
        if let Some(answer) = answer {
            self.tally.answers += 1;
            Event::Expected(answer as u8).write(&mut self.trace);
        }
    }

    fn event(&mut self, event: Event) -> Result<(), Fault> {
        let at = self.trace.len();
        event.write(&mut self.trace);
        match &mut self.answers {
            Answers::Spi(chip) => chip.play(&self.trace[at..]),
            _ => Ok(()),
        }
    }
}

impl Chip {
    pub fn new(part: Part, model: Model) -> Chip {
        Chip {
            model,
            memory: vec![0; part.size()],
            answer: Answer::Nothing,
        }
    }

    fn play(&mut self, event: &[u8]) -> Result<(), Fault> {
        let answered = self.model.event(event, &mut self.memory);
        let fault = |it| Fault::new(format!("the model refuses a sample of the capture: {it}"));
        self.answer = answered.map_err(fault)?.answer;
        Ok(())
    }

    /// The level of SO, if it is the part that drives it.
    fn expected(&self, so: bool) -> Option<Answer> {
        match (self.answer, so) {
            (Answer::Nothing, _) => None,
            (_, true) => Some(Answer::High),
            (_, false) => Some(Answer::Low),
        }
    }
}
