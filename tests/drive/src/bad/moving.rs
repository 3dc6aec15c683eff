//! WP moved where it is to be still, with nothing wrong: which event has the flag first is written
//! here, and so is what quotas make of it.

use super::{plain, Bad};
use crate::call::Call;
use crate::refused::power_on;
use twin::part::{i2c_pin, spi_pin, Wires};
use twin::trace::events;
use twin::Part;

/// A trace that moves WP within a selection or a transfer, from high to low and back.
pub(super) struct Moving {
    pub(super) trace: Vec<u8>,
    /// How many events come before the first move.
    still: u64,
    /// How many bytes they have, and so the flag offset.
    pub(super) flag: u64,
}

impl Moving {
    /// Power on, CS# falls or START, WP falls, WP rises; WP is low in one sample.
    pub(super) fn new(part: &Part) -> Moving {
        let (open, wp) = match part.wires {
            Wires::Spi => (spi_pin::WP | spi_pin::HOLD, spi_pin::WP),
            Wires::I2c => (i2c_pin::WP | i2c_pin::SCL, i2c_pin::WP),
        };
        let still = [power_on(part, part.max_sample(), 0), vec![4, open]].concat();
        Moving {
            trace: [&still[..], &[4, open & !wp, 4, open]].concat(),
            still: 2,
            flag: still.len() as u64,
        }
    }
}

/// WP moved twice, with every quota up to one more than there are events: the first move counts, if it
/// comes before the quota.
pub(super) fn calls(part: &Part) -> Vec<Bad> {
    let Moving { trace, still, flag } = Moving::new(part);
    let whole = Call::whole(plain(part.number), trace);
    let stopped = |quota| {
        let bad = Bad::accepted(whole.stopped(quota), 0);
        if quota > still {
            bad.flagged(flag)
        } else {
            bad
        }
    };
    let events = events(&whole.trace).count() as u64;
    (0..=events + 1).map(stopped).collect()
}
