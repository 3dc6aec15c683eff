//! The trace that docs/COMMAND.md says `capture` makes of samples, worked out from its words.

use super::chip::Seen;
use super::played::Made;
use super::turn::Turn;
use sildrokk::trace::{i2c, spi, Event};
use sildrokk::{Bus, Part};

/// What to make of the samples.
pub struct Wanted {
    pub part: Part,
    pub pins: u32,
    pub start: u32,
    pub answers: bool,
    pub power: bool,
}

impl Wanted {
    pub fn of(part: Part, answers: bool, power: bool) -> Wanted {
        Wanted {
            part,
            pins: 0,
            start: 0,
            answers,
            power,
        }
    }

    pub fn trace(&self, seen: &[Seen]) -> Vec<Event> {
        let mut events: Vec<Event> = Vec::new();
        let mut before: Option<Seen> = None;
        let mut answers = Answers::of(self);
        for one in seen {
            let on = one.power || !self.power;
            let was_on = before.is_some_and(|before| before.power || !self.power);
            let moved = before.filter(|before| before.levels != one.levels);
            match (was_on, on, moved) {
                (false, true, _) => events.push(self.power_on(one.levels)),
                (true, false, _) => events.push(Event::PowerOff),
                (true, true, Some(before)) => {
                    events.extend(answers.before(before, *one));
                    events.push(Event::Sample(one.levels));
                }
                _ => {}
            }
            answers.after(before, *one, on);
            before = Some(*one);
        }
        events
    }

    fn power_on(&self, sample: u8) -> Event {
        let start = self.start;
        match self.part.bus() {
            Bus::Spi => Event::SpiPowerOn { sample },
            Bus::I2c => Event::I2cPowerOn { sample, start },
        }
    }
}

/// Where expected answers are put in, and which.
enum Answers {
    None,
    /// By a model that is given the events.
    Spi(Box<(sildrokk::Model, Vec<u8>)>),
    I2c(Turn),
}

impl Answers {
    fn of(wanted: &Wanted) -> Answers {
        match (wanted.answers, wanted.part.bus()) {
            (false, _) => Answers::None,
            (true, Bus::Spi) => {
                let made = Made::of(wanted.part);
                Answers::Spi(Box::new((made.model(), made.memory)))
            }
            (true, Bus::I2c) => Answers::I2c(Turn::of(wanted.part, wanted.pins)),
        }
    }

    /// The expected answer before a sample. What the model drives before a rise of SCK is in a selection,
    /// whatever the sample of the rise does to CS#.
    fn before(&mut self, before: Seen, one: Seen) -> Option<Event> {
        let edge = |wire: u8| (before.levels & wire != 0, one.levels & wire != 0);
        match self {
            Answers::Spi(chip) if edge(spi::SCK) == (false, true) => {
                let (model, memory) = &mut **chip;
                let driven = model.event(&[0x05, 0x02], memory).is_err();
                driven.then_some(Event::Expected(before.answer.into()))
            }
            Answers::I2c(turn) if edge(i2c::SCL) == (true, false) => {
                turn.ended().map(Event::Expected)
            }
            _ => None,
        }
    }

    /// Whatever the sample was, it has come.
    fn after(&mut self, before: Option<Seen>, one: Seen, on: bool) {
        match self {
            Answers::None => {}
            Answers::Spi(chip) => {
                let (model, memory) = &mut **chip;
                let event = match (model.powered(), on) {
                    (false, true) => vec![0x01, one.levels],
                    (true, false) => vec![0x03],
                    _ => vec![0x04, one.levels],
                };
                let _ = model.event(&event, memory);
            }
            Answers::I2c(turn) if on => turn.sampled(before, one),
            Answers::I2c(turn) => turn.cut(),
        }
    }
}
