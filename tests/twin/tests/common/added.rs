//! The run rule: what two runs on end come to.

use twin::Ran;

/// A run of the front of a trace that isn't refused, and one of the rest: counts and offsets add up.
/// The first one's flag stands if it has one, else the second's with the first's offset added.
pub fn added(first: Ran, second: Ran, trace: &[u8]) -> Ran {
    let flagged = first.flag < trace.len() as u64;
    Ran {
        number: second.number,
        count: first.count + second.count,
        offset: first.offset + second.offset,
        flag: if flagged {
            first.flag
        } else {
            first.offset + second.flag
        },
    }
}
