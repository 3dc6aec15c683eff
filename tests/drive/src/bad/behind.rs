//! Refused events behind accepted ones, which stand.

use super::moving::Moving;
use super::{one_stored, plain, Bad};
use crate::call::Call;
use crate::refused::{self, power_on, Refused};
use crate::Ran;
use twin::trace::events;
use twin::Part;

/// What comes before a refused event, all of it accepted.
struct Before {
    trace: Vec<u8>,
    /// Whether it leaves power on.
    powered: bool,
    changed: u64,
    /// The offset of its first event with the flag.
    flag: Option<u64>,
}

/// Nothing, a power on, a stored byte, and WP within a selection or a transfer, still and moved; with
/// power after it and without.
fn befores(part: &Part) -> Vec<Before> {
    let stored = one_stored(part).into_trace();
    let on = power_on(part, part.max_sample(), 0);
    let Moving { trace, flag, .. } = Moving::new(part);
    let (still, moved) = (&trace[..flag as usize], &trace[..flag as usize + 2]);
    let cut = |trace: &[u8]| [trace, &[3]].concat();
    let before = |trace, powered, changed, flag| Before {
        trace,
        powered,
        changed,
        flag,
    };
    vec![
        before(vec![], false, 0, None),
        before(on, true, 0, None),
        before(cut(&stored), false, 1, None),
        before(stored, true, 1, None),
        before(still.to_vec(), true, 0, None),
        before(cut(moved), false, 0, Some(flag)),
        before(moved.to_vec(), true, 0, Some(flag)),
    ]
}

/// Each refused event, without power and under it, behind all of these.
pub(super) fn refusals(part: &Part) -> Vec<Bad> {
    let befores = befores(part);
    let each = |refused: Refused| {
        let met = befores
            .iter()
            .filter(|before| refused.when.holds(before.powered));
        met.flat_map(|before| refusal(part, before, &refused))
            .collect::<Vec<Bad>>()
    };
    refused::events(part).into_iter().flat_map(each).collect()
}

/// A refused event after others, which stand, and so does their flag; with quotas that reach it, and
/// one that does not. What follows it would store a byte. Nothing can follow one that is cut short.
fn refusal(part: &Part, before: &Before, refused: &Refused) -> [Bad; 3] {
    let rest = match refused.number {
        5 => Vec::new(),
        _ => one_stored(part).into_trace(),
    };
    let trace = [&before.trace[..], &refused.event, &rest].concat();
    let count = events(&before.trace).count() as u64;
    let flag = before.flag.unwrap_or(trace.len() as u64);
    let call = Call::whole(plain(part.number), trace);
    let unreached = Bad::accepted(call.stopped(count), before.changed).flagged(flag);
    let ran = Ran {
        number: refused.number,
        offset: unreached.ran.offset + refused.place() as u64,
        ..unreached.ran
    };
    let reached = |call| Bad {
        call,
        ran,
        changed: before.changed,
    };
    [reached(call.stopped(count + 1)), unreached, reached(call)]
}
