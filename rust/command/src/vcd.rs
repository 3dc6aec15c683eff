//! A run as a value change dump: each event is one unit of time.

use crate::fault::Fault;
use crate::identity::InUse;
use crate::output::Output;
use crate::play::Watcher;
use sildrokk::trace::{i2c, spi, Event};
use sildrokk::{Answer, Bus, Part};
use std::io::Write;
use std::path::Path;

/// What a wire shows.
enum Shows {
    /// A bit of the sample.
    Pin(u8),
    /// A bit of the sample unless the part pulls the wire low: SDA as everybody on the bus sees it.
    Line(u8),
    Answer,
    Power,
    Warning,
}

type Wire = (&'static str, Shows);

const SPI: [Wire; 8] = [
    ("CS#", Shows::Pin(spi::CS)),
    ("SCK", Shows::Pin(spi::SCK)),
    ("SI", Shows::Pin(spi::SI)),
    ("WP#", Shows::Pin(spi::WP)),
    ("HOLD#", Shows::Pin(spi::HOLD)),
    ("SO", Shows::Answer),
    ("POWER", Shows::Power),
    ("WARNING", Shows::Warning),
];

const I2C: [Wire; 7] = [
    ("SCL", Shows::Pin(i2c::SCL)),
    ("SDA", Shows::Line(i2c::SDA)),
    ("HOST", Shows::Pin(i2c::SDA)),
    ("WP", Shows::Pin(i2c::WP)),
    ("PART", Shows::Answer),
    ("POWER", Shows::Power),
    ("WARNING", Shows::Warning),
];

/// All that the wires show after an event.
#[derive(Clone, Copy)]
struct Moment {
    sample: u8,
    answer: Answer,
    power: bool,
    warning: bool,
}

/// The file as it is written.
pub struct Vcd {
    output: Output,
    wires: &'static [Wire],
    /// What each wire showed last.
    shown: Vec<u8>,
    moment: Moment,
    /// The number of the next event.
    time: u64,
    text: Vec<u8>,
}

impl Vcd {
    pub fn create(path: &Path, part: Part, in_use: &mut InUse) -> Result<Vcd, Fault> {
        let wires: &[Wire] = match part.bus() {
            Bus::Spi => &SPI,
            Bus::I2c => &I2C,
        };
        let mut output = Output::create(path, in_use, "the waveform")?;
        output.write(head(part, wires).as_bytes())?;
        Ok(Vcd {
            output,
            wires,
            shown: vec![b' '; wires.len()],
            moment: Moment {
                sample: 0,
                answer: Answer::Nothing,
                power: false,
                warning: false,
            },
            time: 0,
            text: Vec::new(),
        })
    }

    /// The levels after an event, if any of them is new.
    fn event(&mut self, event: Event) {
        match event {
            Event::SpiPowerOn { sample } | Event::I2cPowerOn { sample, .. } => {
                self.moment.sample = sample;
                self.moment.power = true;
            }
            Event::Sample(sample) => self.moment.sample = sample,
            Event::PowerOff => self.moment.power = false,
            Event::Expected(_) => {}
        }
        let mut timed = false;
        for (place, (_, shows)) in self.wires.iter().enumerate() {
            let value = value(shows, &self.moment);
            if self.shown[place] != value {
                if !timed {
                    let _ = writeln!(self.text, "#{}", self.time);
                    timed = true;
                }
                self.shown[place] = value;
                self.text.extend([value, mark(place), b'\n']);
            }
        }
        self.time += 1;
    }

    /// Ends the last event's unit of time.
    pub fn finish(mut self) -> Result<(), Fault> {
        let end = format!("#{}\n", self.time);
        self.output.write(end.as_bytes())?;
        self.output.finish()
    }
}

impl Watcher for Vcd {
    fn see(&mut self, events: &[u8], answers: &[u8], warning: Option<u64>) -> Result<(), Fault> {
        self.text.clear();
        let mut at = 0;
        for number in answers {
            let Some((event, length)) = Event::read(&events[at..]) else {
                break;
            };
            self.moment.answer = Answer::of_number(*number).expect("an answer is 0, 1 or 2");
            self.moment.warning = warning == Some(at as u64);
            self.event(event);
            at += length;
        }
        self.output.write(&self.text)
    }
}

fn head(part: Part, wires: &[Wire]) -> String {
    let mut text = format!("$version sildrokk {} $end\n", env!("CARGO_PKG_VERSION"));
    text.push_str("$comment One unit of time is one event. $end\n");
    text.push_str(&format!(
        "$timescale 1 us $end\n$scope module {part} $end\n"
    ));
    for (place, (name, _)) in wires.iter().enumerate() {
        let mark = char::from(mark(place));
        text.push_str(&format!("$var wire 1 {mark} {name} $end\n"));
    }
    text.push_str("$upscope $end\n$enddefinitions $end\n");
    text
}

/// The letter that stands for a wire.
fn mark(place: usize) -> u8 {
    b'a' + place as u8
}

fn value(shows: &Shows, moment: &Moment) -> u8 {
    let level = |high: bool| if high { b'1' } else { b'0' };
    match shows {
        Shows::Pin(bit) => level(moment.sample & bit != 0),
        Shows::Line(bit) => level(moment.sample & bit != 0 && moment.answer != Answer::Low),
        Shows::Answer => match moment.answer {
            Answer::Low => b'0',
            Answer::High => b'1',
            Answer::Nothing => b'z',
        },
        Shows::Power => level(moment.power),
        Shows::Warning => level(moment.warning),
    }
}
