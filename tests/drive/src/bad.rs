//! Calls with something wrong or at its limit, each with what it is to give back and how many bytes
//! of memory then differ from the first.

mod behind;
mod moving;

use crate::call::Call;
use crate::refused::power_on;
use crate::script::Script;
use crate::{Making, Ran};
use moving::Moving;
use twin::part::Wires;
use twin::trace::{after, events};
use twin::{Part, PARTS};

/// A call and what is to come of it.
#[derive(Clone, Debug)]
pub struct Bad {
    pub call: Call,
    pub ran: Ran,
    pub changed: u64,
}

impl Bad {
    /// A call of which nothing is run, so that nothing has the flag.
    fn unrun(call: Call, number: u8) -> Bad {
        let ran = Ran {
            number,
            count: 0,
            offset: 0,
            flag: call.trace.len() as u64,
        };
        Bad {
            call,
            ran,
            changed: 0,
        }
    }

    /// A call whose events are accepted up to its quota, none of them with the flag, and change so
    /// many bytes.
    fn accepted(call: Call, changed: u64) -> Bad {
        let ran = Ran {
            number: 0,
            count: call.quota.min(events(&call.trace).count() as u64),
            offset: after(&call.trace, call.quota).0,
            flag: call.trace.len() as u64,
        };
        Bad { call, ran, changed }
    }

    /// The same call, in which an event has the flag.
    fn flagged(self, flag: u64) -> Bad {
        let ran = Ran { flag, ..self.ran };
        Bad { ran, ..self }
    }
}

/// All of them.
pub fn calls() -> Vec<Bad> {
    let of_part = |part| {
        [
            memories(part),
            traces(part),
            behind::refusals(part),
            moving::calls(part),
            results(part),
            answers(part),
        ]
    };
    PARTS.iter().flat_map(of_part).flatten().collect()
}

/// Where the good calls store a byte.
pub(crate) const STORED_AT: usize = 0x123;

/// A trace that stores a byte there, which changes the first memory, and leaves the part at rest.
pub(crate) fn one_stored(part: &Part) -> Script {
    match part.wires {
        Wires::Spi => {
            let mut script = Script::spi();
            script.command(&[6]);
            script.command(&[part.addressed(2, STORED_AT), vec![0x77]].concat());
            script
        }
        Wires::I2c => {
            let mut script = Script::i2c(0);
            script.start();
            script.give_all(&[0xa0, 0x01, 0x23, 0x77]);
            script.stop();
            script
        }
    }
}

/// A call that stores a byte in the first memory; each wrong thing must keep it from that. Its
/// answers change often, so that one that lands in another's place is seen.
fn storing(part: &Part) -> Call {
    let mut script = one_stored(part);
    if part.wires == Wires::Spi {
        script.ask(&part.addressed(3, STORED_AT), 1);
    }
    Call::whole(plain(part.number), script.into_trace())
}

pub(crate) fn plain(part: u32) -> Making {
    Making::new(part, 0, 0)
}

/// Calls that change memory or move WP, or have nothing to do: by their quota, or by their trace.
fn any_calls(part: &Part) -> [Call; 4] {
    let good = storing(part);
    let with = |trace| Call {
        trace,
        ..good.clone()
    };
    let moves = with(Moving::new(part).trace);
    [good.stopped(0), with(Vec::new()), moves, good]
}

/// Parts out of range, 256 among them, which cut to a byte would be part 0.
const NO_PARTS: [u32; 8] = [5, 6, 255, 256, 257, 1 << 16, 1 << 31, u32::MAX];

/// Makings that no part can have: parts, pins and bits out of range, 256 among them.
pub fn no_makings() -> Vec<Making> {
    let beyond = |most: u32| [most + 1, 8, 255, 256, 1 << 16, u32::MAX];
    let of_part = |part: &Part| {
        let pins = beyond(part.max_pins).map(|pins| Making::new(part.number, pins, 0));
        let bits = beyond(part.max_bits).map(|bits| Making::new(part.number, 0, bits));
        [pins, bits].concat()
    };
    let no_parts = NO_PARTS.map(plain);
    PARTS.iter().flat_map(of_part).chain(no_parts).collect()
}

/// Lengths of memory that are not the part's, those of the other parts among them.
pub fn no_sizes(part: &Part) -> Vec<usize> {
    let near = [0, 1, part.size - 1, part.size + 1];
    let others = PARTS.iter().map(|part| part.size);
    let all = near.into_iter().chain(others);
    all.filter(|&it| it != part.size).collect()
}

/// Memories of another length, whatever the trace and the quota.
fn memories(part: &Part) -> Vec<Bad> {
    let with = |memory| any_calls(part).map(|call| Call { memory, ..call });
    let bad = no_sizes(part).into_iter().flat_map(with);
    bad.map(|call| Bad::unrun(call, 3)).collect()
}

/// No quota, quotas up to the largest, nothing to run, and fields as large as they may be.
fn traces(part: &Part) -> Vec<Bad> {
    let good = storing(part);
    let with = |trace| Call {
        trace,
        ..good.clone()
    };
    let most = part.max_sample();
    let largest = [power_on(part, most, part.size - 1), vec![4, most, 5, 2]].concat();
    vec![
        Bad::accepted(good.stopped(0), 0),
        Bad::accepted(good.stopped(1), 0),
        Bad::accepted(good.stopped(u64::MAX), 1),
        Bad::accepted(good.stopped(1 << 32), 1),
        Bad::accepted(with(Vec::new()), 0),
        Bad::accepted(with(largest), 0),
    ]
}

/// Lengths of a result other than 32, which refuse a call. `tests/lengths.rs` has every one up to 40.
pub(crate) const NO_RESULTS: [usize; 6] = [0, 16, 24, 31, 33, 64];

/// Each of them, whatever the trace and the quota; 2 comes before 3.
fn results(part: &Part) -> Vec<Bad> {
    let with = |(result, memory)| {
        any_calls(part).map(|call| Call {
            result,
            memory,
            ..call
        })
    };
    let each = |result| [(result, part.size), (result, 0)];
    let bad = NO_RESULTS.into_iter().flat_map(each).flat_map(with);
    bad.map(|call| Bad::unrun(call, 2)).collect()
}

/// Answers with every room up to one more than there are events.
fn answers(part: &Part) -> Vec<Bad> {
    let good = storing(part);
    let events = events(&good.trace).count();
    let with = |room| Call {
        answers: Some(room),
        ..good.clone()
    };
    (0..=events + 1)
        .map(|room| Bad::accepted(with(room), 1))
        .collect()
}
