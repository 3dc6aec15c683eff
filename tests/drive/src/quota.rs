//! The run rule through quotas: what a run that is stopped gives back is told from the whole run, and
//! the twin is not asked.

use crate::call::{Agreed, Call};
use crate::Ran;
use twin::trace::after;

/// What a run gives back that so many events stop, told from the whole run: a flag stands if it came
/// before the stop, and else there is none. 2 and 3 are tested before the quota.
fn stopped(trace: &[u8], whole: &Ran, quota: u64) -> Ran {
    if quota > whole.count || matches!(whole.number, 2 | 3) {
        return *whole;
    }
    let (offset, _) = after(trace, quota);
    let flag = Some(whole.flag).filter(|&flag| flag < offset);
    Ran {
        number: 0,
        count: quota,
        offset,
        flag: flag.unwrap_or(trace.len() as u64),
    }
}

/// Quotas that stop a run just before the flagged event, with it as the last one, and one later; and
/// one more that is given.
fn around_flag(whole: &Agreed, other: u64) -> impl Iterator<Item = u64> {
    let around = whole.flagged.map(|place| [place, place + 1, place + 2]);
    around.into_iter().flatten().chain([other])
}

impl Call {
    /// The same call stopped by quotas around its flagged event and by one other: how many events
    /// these runs accepted, if each gives what the whole run tells.
    pub fn compare_stopped(&self, whole: &Agreed, other: u64) -> Result<u64, String> {
        let stopped = |quota| {
            let one = self.compare_one(&whole.ran, quota);
            one.map_err(|difference| format!("{difference}, with quota {quota}"))
        };
        around_flag(whole, other).map(stopped).sum()
    }

    fn compare_one(&self, whole: &Ran, quota: u64) -> Result<u64, String> {
        let ran = self.stopped(quota).compare()?.ran;
        let told = stopped(&self.trace, whole, quota);
        if ran == told {
            Ok(ran.count)
        } else {
            Err(format!("{ran:?}, and the whole run tells {told:?}"))
        }
    }
}
