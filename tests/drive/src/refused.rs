//! Events that a part refuses, each with its number. Many have a second reason, whose number comes
//! later in the order of document 01 and ask 1: 4, 5, 6, 10, 11, 7, 8, 9.

use twin::part::Wires;
use twin::trace::i2c_on;
use twin::Part;

/// An event that is refused.
#[derive(Clone, Debug)]
pub struct Refused {
    pub event: Vec<u8>,
    pub number: u8,
    pub when: When,
}

/// Whether it takes power, or the lack of it, to refuse an event.
#[derive(Clone, Copy, Debug, PartialEq, Eq)]
pub enum When {
    Always,
    Unpowered,
    Powered,
}

impl When {
    pub fn holds(self, powered: bool) -> bool {
        match self {
            When::Always => true,
            When::Unpowered => !powered,
            When::Powered => powered,
        }
    }
}

impl Refused {
    /// The byte of the event that a run's offset names.
    pub fn place(&self) -> usize {
        place(self.number)
    }
}

/// The byte of an event that a run's offset names if it is refused with this number: the first of a bad
/// sample (6), start address (10) or expected value (11), else the kind byte.
pub fn place(number: u8) -> usize {
    match number {
        6 | 11 => 1,
        10 => 2,
        _ => 0,
    }
}

/// The events that a part refuses while it is at rest, so that its present answer is 2.
pub fn events(part: &Part) -> Vec<Refused> {
    let most = part.max_sample();
    let unpowered = vec![vec![3], vec![4, 0], vec![4, most], vec![5, 0], vec![5, 2]];
    let powered = vec![power_on(part, 0, 0), power_on(part, most, part.size - 1)];
    let values = [3, 4, 0xff].map(|value| vec![5, value]).to_vec();
    let lists = [
        (4, When::Always, kinds(part)),
        (5, When::Always, cut_short(part)),
        (6, When::Always, samples(part)),
        (10, When::Always, starts(part)),
        (11, When::Always, values),
        (7, When::Unpowered, unpowered),
        (8, When::Powered, powered),
        (9, When::Powered, vec![vec![5, 0], vec![5, 1]]),
    ];
    let of_list = |(number, when, events): (u8, When, Vec<Vec<u8>>)| {
        events.into_iter().map(move |event| Refused {
            event,
            number,
            when,
        })
    };
    lists.into_iter().flat_map(of_list).collect()
}

/// A power on of the part's bus; on SPI there is no start address.
pub fn power_on(part: &Part, sample: u8, start: usize) -> Vec<u8> {
    match part.wires {
        Wires::Spi => vec![1, sample],
        Wires::I2c => i2c_on(sample, start as u32).into(),
    }
}

/// No kind at all, and the power on of the other bus, whatever comes after its kind.
fn kinds(part: &Part) -> Vec<Vec<u8>> {
    let other = match part.wires {
        Wires::Spi => vec![2, 0xff, 0xff, 0xff, 0xff],
        Wires::I2c => vec![1, 0xff],
    };
    let in_range = [&other[..1], &vec![0; other.len() - 1]].concat();
    vec![vec![0], vec![6], vec![0xff], other, in_range]
}

/// Each kind that has a body, without the last byte of it and with less; what is there is too large.
fn cut_short(part: &Part) -> Vec<Vec<u8>> {
    let on = power_on(part, 0xff, 0xff_ffff);
    let shorter = (1..on.len()).map(|length| on[..length].to_vec());
    [vec![4], vec![5]].into_iter().chain(shorter).collect()
}

/// Samples too large, also where the start address is too large as well.
fn samples(part: &Part) -> Vec<Vec<u8>> {
    let with = |sample: u8| {
        [
            vec![4, sample],
            power_on(part, sample, 0),
            power_on(part, sample, part.size),
        ]
    };
    let mut all: Vec<Vec<u8>> = [part.max_sample() + 1, 0xff]
        .into_iter()
        .flat_map(with)
        .collect();
    all.dedup();
    all
}

/// Start addresses not below the size, among them one with no bit set in its two low bytes; only I2C
/// has them.
fn starts(part: &Part) -> Vec<Vec<u8>> {
    let with = |start| [0, part.max_sample()].map(|sample| power_on(part, sample, start));
    match part.wires {
        Wires::Spi => Vec::new(),
        Wires::I2c => [part.size, 0x80_0000, 0xff_ffff]
            .into_iter()
            .flat_map(with)
            .collect(),
    }
}
