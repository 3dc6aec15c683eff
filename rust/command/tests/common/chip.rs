//! A chip on a bench, and a logic analyser at its wires: what it captures of a host's events.

use super::played::{steps, Made};
use super::random::Random;
use super::vcd::Capture;
use sildrokk::trace::{i2c, Event};
use sildrokk::{Answer, Bus, Part};

/// One sample of the analyser, as the map names its channels.
#[derive(Clone, Copy, Debug, PartialEq, Eq)]
pub struct Seen {
    pub power: bool,
    /// The wires of the part as a trace has them; on I2C with the part's own pull.
    pub levels: u8,
    /// SO, or SDA.
    pub answer: bool,
}

/// The chip, and whether the analyser takes several samples of each moment.
pub struct Bench {
    pub made: Made,
    pub random: Random,
    pub often: bool,
}

impl Bench {
    pub fn of(part: Part, seed: u64) -> Bench {
        let mut random = Random::of(seed);
        let memory = random.bytes(part.size());
        Bench {
            made: Made::with_memory(part, memory),
            random,
            often: true,
        }
    }

    /// What is seen while the host does this; the chip must take it all.
    pub fn seen(&mut self, events: &[Event]) -> Vec<Seen> {
        let steps = steps(&self.made, &super::bus::bytes(events));
        assert_eq!(steps.len(), events.len(), "the host's own fault");
        let mut seen = Vec::new();
        let mut levels = 0;
        for step in steps {
            levels = levels_of(step.event).unwrap_or(levels);
            let one = self.one(step.event, levels, step.answer);
            let times = if self.often {
                self.random.within(1..4)
            } else {
                1
            };
            seen.extend(std::iter::repeat_n(one, times));
        }
        seen
    }

    /// A wire that nobody drives is at any level.
    fn one(&mut self, event: Event, levels: u8, answer: Answer) -> Seen {
        let power = event != Event::PowerOff;
        match (self.made.part.bus(), answer) {
            (Bus::Spi, Answer::Nothing) => Seen {
                power,
                levels,
                answer: self.random.once_in(2),
            },
            (Bus::Spi, _) => Seen {
                power,
                levels,
                answer: answer == Answer::High,
            },
            (Bus::I2c, _) => {
                let pulled = if answer == Answer::Low { i2c::SDA } else { 0 };
                let levels = levels & !pulled;
                Seen {
                    power,
                    levels,
                    answer: levels & i2c::SDA != 0,
                }
            }
        }
    }
}

fn levels_of(event: Event) -> Option<u8> {
    match event {
        Event::SpiPowerOn { sample } | Event::I2cPowerOn { sample, .. } => Some(sample),
        Event::Sample(sample) => Some(sample),
        Event::PowerOff | Event::Expected(_) => None,
    }
}

/// The wires' names in a map, by their bits in a sample.
pub fn wires(bus: Bus) -> &'static [&'static str] {
    match bus {
        Bus::Spi => &["cs", "sck", "si", "wp", "hold"],
        Bus::I2c => &["scl", "sda", "wp"],
    }
}

/// The capture of these samples: wires at the first channels from `D0` on, then the answer, the power,
/// and one that has nothing to do with the part.
pub fn captured(part: Part, seen: &[Seen], random: &mut Random) -> Capture {
    let wires = wires(part.bus()).len();
    let names: Vec<String> = (0..wires + 3).map(|at| format!("D{at}")).collect();
    let sample = |one: &Seen| {
        let levels = (0..wires).map(|bit| one.levels >> bit & 1 == 1);
        levels
            .chain([one.answer, one.power, random.once_in(2)])
            .collect()
    };
    Capture {
        channels: names,
        samples: seen.iter().map(sample).collect(),
    }
}

/// The map of such a capture: the wires, and what of answer and power is to be mapped.
pub fn map(part: Part, answer: bool, power: bool) -> String {
    let wires = wires(part.bus());
    let mut words: Vec<String> = wires
        .iter()
        .enumerate()
        .map(|(at, wire)| format!("{wire}=D{at}"))
        .collect();
    let name = match part.bus() {
        Bus::Spi => "so",
        Bus::I2c => "out",
    };
    words.extend(answer.then(|| format!("{name}=D{}", wires.len())));
    words.extend(power.then(|| format!("power=D{}", wires.len() + 1)));
    words.join(",")
}
