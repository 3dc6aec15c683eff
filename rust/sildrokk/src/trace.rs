//! Events as a trace has them: a kind byte and its body, one after the other with nothing between.

/// The bits of an SPI sample, 1 for high.
pub mod spi {
    pub const CS: u8 = 0x01;
    pub const SCK: u8 = 0x02;
    pub const SI: u8 = 0x04;
    pub const WP: u8 = 0x08;
    pub const HOLD: u8 = 0x10;
}

/// The bits of an I2C sample, 1 for high.
pub mod i2c {
    pub const SCL: u8 = 0x01;
    /// As all others drive it, without the part's own pull.
    pub const SDA: u8 = 0x02;
    pub const WP: u8 = 0x04;
}

/// One event. Its fields may be out of their ranges: what is taken is for the model to say.
///
/// ```
/// use sildrokk::trace::{spi, Event};
///
/// let rest = spi::CS | spi::WP | spi::HOLD;
/// let mut trace = Vec::new();
/// Event::SpiPowerOn { sample: rest }.write(&mut trace);
/// Event::Sample(rest & !spi::CS).write(&mut trace);
/// Event::PowerOff.write(&mut trace);
/// assert_eq!(trace, [0x01, 0x19, 0x04, 0x18, 0x03]);
/// assert_eq!(Event::read(&trace), Some((Event::SpiPowerOn { sample: rest }, 2)));
/// ```
#[derive(Clone, Copy, Debug, PartialEq, Eq, Hash)]
pub enum Event {
    /// 01: power on of an SPI part.
    SpiPowerOn { sample: u8 },
    /// 02: power on of an I2C part; the start address is where a read that sends none begins. Of its
    /// number three bytes go into a trace.
    I2cPowerOn { sample: u8, start: u32 },
    /// 03: power off.
    PowerOff,
    /// 04: the wires' next sample.
    Sample(u8),
    /// 05: the number of the answer that is expected now.
    Expected(u8),
}

impl Event {
    /// How many bytes an event with this kind byte has, itself included; none if there is no such kind.
    #[inline]
    pub fn length(kind: u8) -> Option<usize> {
        match kind {
            0x01 | 0x04 | 0x05 => Some(2),
            0x02 => Some(5),
            0x03 => Some(1),
            _ => None,
        }
    }

    /// The event at the front of the bytes and how many of them it has; none if they have no such kind,
    /// or end before the event does.
    #[inline]
    pub fn read(bytes: &[u8]) -> Option<(Event, usize)> {
        let length = Event::length(*bytes.first()?)?;
        let event = match *bytes.get(..length)? {
            [0x01, sample] => Event::SpiPowerOn { sample },
            [0x02, sample, high, middle, low] => Event::I2cPowerOn {
                sample,
                start: u32::from_be_bytes([0, high, middle, low]),
            },
            [0x03] => Event::PowerOff,
            [0x04, sample] => Event::Sample(sample),
            [_, answer] => Event::Expected(answer),
            _ => return None,
        };
        Some((event, length))
    }

    /// Writes it behind the trace.
    pub fn write(self, trace: &mut Vec<u8>) {
        match self {
            Event::SpiPowerOn { sample } => trace.extend([0x01, sample]),
            Event::I2cPowerOn { sample, start } => {
                let [_, high, middle, low] = start.to_be_bytes();
                trace.extend([0x02, sample, high, middle, low]);
            }
            Event::PowerOff => trace.push(0x03),
            Event::Sample(sample) => trace.extend([0x04, sample]),
            Event::Expected(answer) => trace.extend([0x05, answer]),
        }
    }
}
