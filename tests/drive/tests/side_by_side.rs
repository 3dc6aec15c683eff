//! Several models in one host, their calls interleaved, and in two threads on buffers of their own: each
//! gives what the same calls give alone, so that no call keeps anything of another.

use drive::ask::{Ask, Gave};
use drive::held::{Held, Pair};
use drive::mixed::Mixed;
use drive::{good_makings, Making};
use std::sync::Barrier;
use twin::gen::Rng;

/// A model's calls, each with what it gave and the state it left, and the model in the end.
struct Alone {
    making: Making,
    calls: Vec<(Ask, Gave, Vec<u8>)>,
    end: Held,
}

/// So many drawn calls on a model that has the host to itself.
fn alone(making: Making, calls: usize, seed: u64) -> Alone {
    let mut rng = Rng::new(seed);
    let (mut pair, mut mixed) = (Pair::new(making), Mixed::new(making));
    let call = |_| {
        let ask = mixed.draw(&mut rng, pair.model.powered());
        let gave = pair.ask(&ask).unwrap_or_else(|it| panic!("{ask:x?}: {it}"));
        mixed.asked(&ask, &gave);
        (ask, gave, pair.held.state.clone())
    };
    let calls = (0..calls).map(call).collect();
    Alone {
        making,
        calls,
        end: pair.held,
    }
}

/// Two models of each part, of its first making and its last; part 0 has one alone, for both.
fn models(calls: usize) -> Vec<Alone> {
    let of_part = |part| {
        let mut all = good_makings();
        all.retain(|making| making.part == part);
        [all[0], all[all.len() - 1]]
    };
    let makings = (0..5).flat_map(of_part).zip(0x51de..);
    makings
        .map(|(making, seed)| alone(making, calls, seed))
        .collect()
}

/// A model of which so many calls are made.
struct Going<'a> {
    alone: &'a Alone,
    held: Held,
    made: usize,
}

impl Going<'_> {
    fn new(alone: &Alone) -> Going<'_> {
        Going {
            alone,
            held: Held::new(alone.making),
            made: 0,
        }
    }

    /// The next call; false after the last.
    fn step(&mut self) -> bool {
        let making = self.alone.making;
        let Some((ask, gave, state)) = self.alone.calls.get(self.made) else {
            assert!(self.held == self.alone.end, "{making}: in the end");
            return false;
        };
        let same = self.held.ask(ask);
        assert_eq!(
            (&same, &self.held.state),
            (gave, state),
            "{making}: {ask:x?}"
        );
        self.made += 1;
        true
    }
}

/// Calls of drawn models until each has made its own.
fn interleaved(models: &[Alone], rng: &mut Rng) {
    let mut going: Vec<Going> = models.iter().map(Going::new).collect();
    while !going.is_empty() {
        let at = rng.below(going.len() as u64) as usize;
        if !going[at].step() {
            going.swap_remove(at);
        }
    }
}

#[test]
fn in_one_host() {
    let models = models(1_500);
    interleaved(&models, &mut Rng::new(0x51de));
}

/// Each thread has all models, with buffers of its own; both begin at the same time.
#[test]
fn in_two_threads() {
    let models = models(500);
    let begin = Barrier::new(2);
    std::thread::scope(|scope| {
        for seed in [1, 2] {
            let (models, begin) = (&models, &begin);
            scope.spawn(move || {
                let mut rng = Rng::new(seed);
                begin.wait();
                for _ in 0..8 {
                    interleaved(models, &mut rng);
                }
            });
        }
    });
}
