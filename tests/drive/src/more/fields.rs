//! Ask 1: bad fields where another number could be given too, in ways or with values that neither
//! base.txt nor fields.txt has. On each part of the bus.

use super::Shown;
use crate::refused::power_on;
use twin::part::Wires;
use twin::{Part, PARTS};

pub(super) fn all() -> Vec<Shown> {
    let of_part = |part: &Part| {
        let own = match part.wires {
            Wires::Spi => spi(part),
            Wires::I2c => i2c(part),
        };
        [own, first_of_all(part)].concat()
    };
    PARTS.iter().flat_map(of_part).collect()
}

fn spi(part: &Part) -> Vec<Shown> {
    let on = power_on(part, 0, 0);
    let bad = power_on(part, part.max_sample() + 1, 0);
    vec![
        shown(
            part,
            "power on under power, its sample too large: 6, not 8",
            &[&on, &bad],
        ),
        shown(
            part,
            "power on of the other bus, sample and start address too large: 4, not 6",
            &[&[2, 0xff, 0xff, 0xff, 0xff]],
        ),
    ]
}

fn i2c(part: &Part) -> Vec<Shown> {
    let on = power_on(part, 0, 0);
    let bad = power_on(part, part.max_sample() + 1, part.size);
    vec![
        shown(
            part,
            "power on under power, sample and start address too large: 6, neither 10 nor 8",
            &[&on, &bad],
        ),
        shown(
            part,
            "power on under power, start address too large: 10, not 8",
            &[&on, &power_on(part, 0, part.size)],
        ),
        shown(
            part,
            "sample and start address too large, the last byte missing: 5, neither 6 nor 10",
            &[&bad[..4]],
        ),
        shown(
            part,
            "power on of the other bus, its sample too large: 4, not 6",
            &[&[1, 0xff]],
        ),
    ]
}

/// Bad fields in the first event of a trace, which has no power.
fn first_of_all(part: &Part) -> Vec<Shown> {
    let sample = [4, part.max_sample() + 1];
    vec![
        shown(part, "no power, a sample too large: 6, not 7", &[&sample]),
        shown(
            part,
            "no power, an expected value too large: 11, not 7",
            &[&[5, 3]],
        ),
    ]
}

fn shown(part: &Part, what: &str, events: &[&[u8]]) -> Shown {
    Shown {
        what: format!("{}: {what}", part.name),
        part: part.number,
        bits: 0,
        trace: events.concat(),
    }
}
