//! Which channel of a capture each wire of a part is.

use crate::fault::Fault;
use sildrokk::trace::{i2c, spi};
use sildrokk::Bus;

/// What a channel is mapped to.
#[derive(Clone, Copy, PartialEq)]
enum Wire {
    /// A bit of the sample.
    Pin(u8),
    /// Where the part's answers are seen.
    Output,
    Power,
}

const SPI: [(&str, Wire); 7] = [
    ("cs", Wire::Pin(spi::CS)),
    ("sck", Wire::Pin(spi::SCK)),
    ("si", Wire::Pin(spi::SI)),
    ("wp", Wire::Pin(spi::WP)),
    ("hold", Wire::Pin(spi::HOLD)),
    ("so", Wire::Output),
    ("power", Wire::Power),
];

const I2C: [(&str, Wire); 5] = [
    ("scl", Wire::Pin(i2c::SCL)),
    ("sda", Wire::Pin(i2c::SDA)),
    ("wp", Wire::Pin(i2c::WP)),
    ("out", Wire::Output),
    ("power", Wire::Power),
];

/// Where a wire's level comes from.
#[derive(Clone, Copy)]
enum Level {
    Channel(usize),
    Tied(bool),
}

/// The words of `--map` for a bus: which channel each wire is, where one is named.
pub struct Words<'a> {
    wires: &'static [(&'static str, Wire)],
    channels: Vec<Option<&'a str>>,
}

/// The wires of a part in the samples of a capture.
pub struct Map {
    pins: Vec<(u8, Level)>,
    output: Option<Level>,
    power: Level,
}

/// One sample of a capture, as far as the part is concerned.
#[derive(Clone, Copy)]
pub struct Seen {
    pub sample: u8,
    pub output: bool,
    pub power: bool,
}

impl<'a> Words<'a> {
    pub fn new(words: &'a [String], bus: Bus) -> Result<Words<'a>, Fault> {
        let wires: &[_] = match bus {
            Bus::Spi => &SPI,
            Bus::I2c => &I2C,
        };
        let mut channels = vec![None; wires.len()];
        for word in words.iter().map(|it| it.trim()).filter(|it| !it.is_empty()) {
            let (wire, channel) = word.split_once('=').unwrap_or((word, ""));
            let (wire, channel) = (wire.trim(), channel.trim());
            if channel.is_empty() {
                return Err(Fault::new(format!(
                    "--map takes WIRE=CHANNEL, and not {word}"
                )));
            }
            let place = wires
                .iter()
                .position(|(name, _)| name.eq_ignore_ascii_case(wire));
            let place = place.ok_or_else(|| no_wire(wire, bus, wires))?;
            if channels[place].replace(channel).is_some() {
                return Err(Fault::new(format!("--map names the wire {wire} twice")));
            }
        }
        Ok(Words { wires, channels })
    }

    /// With the channels that the capture has.
    pub fn with(&self, channels: &[String]) -> Result<Map, Fault> {
        let mut map = Map {
            pins: Vec::new(),
            output: None,
            power: Level::Tied(true),
        };
        for ((name, wire), channel) in self.wires.iter().zip(&self.channels) {
            let level = channel.map(|it| level(it, channels)).transpose()?;
            match (wire, level) {
                (Wire::Pin(bit), Some(level)) => map.pins.push((*bit, level)),
                (Wire::Pin(_), None) => return Err(missing(name, channels)),
                (Wire::Output, output) => map.output = output,
                (Wire::Power, power) => map.power = power.unwrap_or(map.power),
            }
        }
        Ok(map)
    }
}

impl Map {
    /// Whether the part's answers are seen.
    pub fn has_output(&self) -> bool {
        self.output.is_some()
    }

    pub fn seen(&self, unit: &[u8]) -> Seen {
        let pins = self.pins.iter().filter(|(_, level)| level.high(unit));
        Seen {
            sample: pins.fold(0, |sample, (bit, _)| sample | bit),
            output: self.output.is_some_and(|it| it.high(unit)),
            power: self.power.high(unit),
        }
    }
}

impl Level {
    /// The level in a sample, which has a bit for each channel, the lowest of the first byte first.
    fn high(self, unit: &[u8]) -> bool {
        match self {
            Level::Channel(place) => unit[place / 8] >> (place % 8) & 1 != 0,
            Level::Tied(high) => high,
        }
    }
}

fn level(name: &str, channels: &[String]) -> Result<Level, Fault> {
    let mut named = channels.iter().enumerate().filter(|(_, it)| *it == name);
    match (name, named.next(), named.next()) {
        ("high", _, _) => Ok(Level::Tied(true)),
        ("low", _, _) => Ok(Level::Tied(false)),
        (_, Some((place, _)), None) => Ok(Level::Channel(place)),
        (_, Some(_), Some(_)) => Err(Fault::new(format!(
            "the capture has several channels {name}"
        ))),
        (_, None, _) => {
            let there = channels.join(", ");
            Err(Fault::new(format!(
                "the capture has no channel {name}; it has {there}"
            )))
        }
    }
}

fn no_wire(wire: &str, bus: Bus, wires: &[(&str, Wire)]) -> Fault {
    let names: Vec<&str> = wires.iter().map(|(name, _)| *name).collect();
    let names = names.join(", ");
    Fault::new(format!(
        "--map names the wire {wire}, and {bus} parts have {names}"
    ))
}

fn missing(wire: &str, channels: &[String]) -> Fault {
    Fault::new(format!(
        "--map does not tell which channel {wire} is: {wire}=CHANNEL, or {wire}=high or {wire}=low if it is \
         tied; the capture has {}",
        channels.join(", ")
    ))
}
