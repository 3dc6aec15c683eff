//! A long comparison of the proved build with the twin: `soak EVENTS SEED`, or `soak 300s SEED`
//! for so many seconds. Stops at the first difference and prints its trace.

use drive::byte_call::ByteCall;
use drive::call::{Agreed, Call};
use drive::held::Pair;
use drive::mixed::Mixed;
use drive::tally::{head, ByteTally, Tally};
use drive::Making;
use std::process::ExitCode;
use std::time::{Duration, Instant};
use twin::gen::{self, Case, Knobs, Rng};
use twin::part::Wires;
use twin::PARTS;

/// When to stop.
enum Until {
    Events(u64),
    Time(Duration),
}

impl Until {
    fn parse(word: &str) -> Option<Until> {
        match word.strip_suffix('s') {
            Some(seconds) => Some(Until::Time(Duration::from_secs(seconds.parse().ok()?))),
            None => Some(Until::Events(word.parse().ok()?)),
        }
    }

    fn reached(&self, accepted: u64, begun: Instant) -> bool {
        match *self {
            Until::Events(events) => accepted >= events,
            Until::Time(time) => begun.elapsed() >= time,
        }
    }
}

fn main() -> ExitCode {
    let words: Vec<String> = std::env::args().skip(1).collect();
    let (until, seed) = match &words[..] {
        [until, seed] => (Until::parse(until), seed.parse().ok()),
        _ => (None, None),
    };
    let (Some(until), Some(seed)) = (until, seed) else {
        eprintln!("usage: soak EVENTS SEED, or soak SECONDSs SEED");
        return ExitCode::from(2);
    };
    match soak(&until, seed) {
        Ok(()) => ExitCode::SUCCESS,
        Err(report) => {
            println!("{report}");
            ExitCode::FAILURE
        }
    }
}

/// Each part in turn; each trace whole with its answers, one event at a time, then without answers up
/// to a quota, and up to those around its flagged event. Then, on a SPI part, a selection as bytes,
/// and some calls on the one image that the part keeps throughout.
fn soak(until: &Until, seed: u64) -> Result<(), String> {
    // The calls on the kept images are drawn apart, so that a seed's traces do not depend on them.
    let (mut rng, mut of_kept) = (Rng::new(seed), Rng::new(!seed));
    let mut tallies: [Tally; PARTS.len()] = Default::default();
    let mut selections = ByteTally::default();
    let mut kept: Vec<Kept> = PARTS.iter().map(|part| Kept::new(part.number)).collect();
    let begun = Instant::now();
    let mut accepted = 0;
    while !until.reached(accepted, begun) {
        for part in &PARTS {
            let whole = Call::of(case(&mut rng, part.number));
            let agreed = compared(&whole)?;
            let stopped = whole.compare_stopped(&agreed, rng.below(agreed.ran.count + 2));
            let stopped = stopped.map_err(|difference| format!("{difference}: {whole}"))?;
            accepted += agreed.ran.count + stopped;
            tallies[part.number as usize].add(&whole.trace, &agreed);
            if part.wires == Wires::Spi {
                let call = ByteCall::of(gen::byte_case(&mut rng, part.number));
                let agreed = call.compare();
                selections.add(&agreed.map_err(|difference| format!("{difference}: {call}"))?);
            }
            kept[part.number as usize].calls(&mut of_kept)?;
        }
    }
    report(&tallies, accepted, begun.elapsed());
    println!("{selections}");
    let calls: u64 = kept.iter().map(|kept| kept.calls).sum();
    println!("{calls} calls compared on one image of each part");
    Ok(())
}

/// A model that lasts as long as the comparison.
struct Kept {
    pair: Pair,
    mixed: Mixed,
    calls: u64,
}

impl Kept {
    fn new(part: u32) -> Kept {
        let table = &PARTS[part as usize];
        let making = Making::new(part, table.max_pins, table.max_bits);
        Kept {
            pair: Pair::new(making),
            mixed: Mixed::new(making),
            calls: 0,
        }
    }

    /// A few calls more.
    fn calls(&mut self, rng: &mut Rng) -> Result<(), String> {
        for _ in 0..5 {
            let ask = self.mixed.draw(rng, self.pair.model.powered());
            let state = self.pair.held.state.clone();
            let gave = self.pair.ask(&ask);
            let gave = gave.map_err(|it| format!("{it}: on {state:02x?}, {ask:02x?}"))?;
            self.mixed.asked(&ask, &gave);
            self.calls += 1;
        }
        Ok(())
    }
}

/// A case with traces up to ten times as long as the tests have them.
fn case(rng: &mut Rng, part: u32) -> Case {
    let drawn = Knobs::draw(rng, part);
    let knobs = Knobs {
        blocks: drawn.blocks * rng.pick(&[1, 10]),
        ..drawn
    };
    Case {
        part,
        pins: knobs.pins,
        bits: knobs.bits,
        trace: gen::trace_with(rng, part, &knobs),
    }
}

/// What both gave, also one event at a time, or the call with the quota at which they first differ.
fn compared(call: &Call) -> Result<Agreed, String> {
    let agreed = call.compare();
    let agreed = agreed.and_then(|agreed| call.compare_singly().map(|()| agreed));
    agreed.map_err(|difference| {
        let differs = |&quota: &u64| call.stopped(quota).compare().is_err();
        let quota = (0..=call.trace.len() as u64).find(differs);
        format!("{difference}, first with quota {quota:?}: {call}")
    })
}

fn report(tallies: &[Tally], accepted: u64, time: Duration) {
    println!("part{}", head());
    let mut sum = Tally::default();
    for (part, tally) in tallies.iter().enumerate() {
        println!("{part:>4}{tally}");
        sum.join(tally);
    }
    println!(" all{sum}");
    let seconds = time.as_secs_f64();
    println!("{accepted} events compared, with those of the stopped runs, in {seconds:.1} s");
}
