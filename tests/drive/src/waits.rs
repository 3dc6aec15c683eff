//! How often a finished data byte of WRITE waits on the part that stores late, and what ends that, told
//! from the images before and after each event.

use crate::phases::{PHASE, POWER, WAITING};
use crate::Making;
use twin::image::encode;
use twin::part::spi_pin::HOLD;
use twin::text::first_memory;
use twin::trace::events;
use twin::Model;

/// Where an image has the last sample.
const LAST: usize = 4;

#[derive(Clone, Copy, Debug, Default, PartialEq, Eq)]
pub struct Waits {
    /// Bytes that came to wait.
    pub reached: u64,
    /// Waits that the next counted rise ended, CS# rising, and a power off.
    pub by_rise: u64,
    pub by_cs: u64,
    pub lost: u64,
    /// Holds that came to a byte that waits.
    pub held: u64,
}

impl Waits {
    /// One event, by the images before and after it.
    pub fn step(&mut self, before: &[u8], after: &[u8]) {
        let selected = after[LAST] & 1 == 0;
        match (before[PHASE] == WAITING, after[PHASE] == WAITING) {
            (false, true) => self.reached += 1,
            (true, false) if after[POWER] == 0 => self.lost += 1,
            (true, false) if selected => self.by_rise += 1,
            (true, false) => self.by_cs += 1,
            (true, true) => {
                let hold = before[LAST] & HOLD != 0 && after[LAST] & HOLD == 0;
                self.held += u64::from(hold);
            }
            (false, false) => {}
        }
    }

    /// The events of a trace from a making, by the twin's images.
    pub fn add(&mut self, making: Making, trace: &[u8]) {
        let Making { part, pins, bits } = making;
        let (_, mut model) = Model::make(part, pins, bits);
        let mut memory = first_memory(model.part().size);
        let mut before = encode(&model);
        for event in events(trace) {
            if model.event(event, &mut memory).0 != 0 {
                break;
            }
            let after = encode(&model);
            self.step(&before, &after);
            before = after;
        }
    }

    /// So many of each at least, or none at all of any if the part has none.
    pub fn assert_least(&self, part: u32, least: Waits) {
        let all = |it: &Waits| [it.reached, it.by_rise, it.by_cs, it.lost, it.held];
        let (ours, least) = (all(self), all(&least));
        let enough = match part {
            crate::late::LATE => ours.iter().zip(least).all(|(&it, least)| it >= least),
            _ => ours == [0; 5],
        };
        assert!(enough, "part {part}: {self:?}");
    }
}
