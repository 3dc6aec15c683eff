//! States that events have reached: a few of each phase of each part, as the proved build leaves them.

use crate::ask::Ask;
use crate::held::Held;
use crate::phases::{PHASE, POWER};
use crate::Making;
use std::collections::BTreeMap;
use twin::gen::{self, Rng};
use twin::trace::events;

/// Traces that are looked through.
const TRACES: usize = 150;

/// Without power, and each phase under power.
pub type Phases = BTreeMap<(u8, u8), Vec<Vec<u8>>>;

/// At most so many states of each phase of a part, no two the same.
pub fn states(part: u32, each: usize) -> Phases {
    let mut rng = Rng::new(0x57a7e + u64::from(part));
    let mut phases = Phases::new();
    for _ in 0..TRACES {
        let case = gen::case_of(&mut rng, part);
        let mut held = Held::new(Making::new(part, case.pins, case.bits));
        keep(&mut phases, &held.state, each);
        for event in events(&case.trace) {
            held.ask(&Ask::Event(event.to_vec()));
            if rng.chance(100) {
                keep(&mut phases, &held.state, each);
            }
        }
    }
    phases
}

fn keep(phases: &mut Phases, state: &[u8], each: usize) {
    let kept = phases.entry((state[POWER], state[PHASE])).or_default();
    if kept.len() < each && kept.iter().all(|other| other != state) {
        kept.push(state.to_vec());
    }
}
