//! Traces written by hand, with write protect moved at one event after another.

use twin::part::{i2c_pin, spi_pin};
use twin::text::first_memory;
use twin::{Ledger, Model};

/// A trace that tells of each event whether it has the flag if write protect moves with it.
pub struct Moves {
    part: u32,
    /// The bit of write protect in a sample.
    pin: u8,
    /// Whether it is to stand still from the last event on.
    still: bool,
    events: Vec<(Vec<u8>, bool)>,
}

impl Moves {
    /// A trace for a part made with pins and bits 0.
    pub fn of(part: u32) -> Moves {
        let spi = part < 3;
        Moves {
            part,
            pin: if spi { spi_pin::WP } else { i2c_pin::WP },
            still: false,
            events: Vec::new(),
        }
    }

    /// Events that have no flag whatever moves: power events and expected answers.
    pub fn unwarned(&mut self, events: &[&[u8]]) -> &mut Moves {
        let unwarned = |event: &&[u8]| (event.to_vec(), false);
        self.events.extend(events.iter().map(unwarned));
        self
    }

    /// Power off, after which nothing is to stand still.
    pub fn off(&mut self) -> &mut Moves {
        self.still = false;
        self.unwarned(&[&[3]])
    }

    /// Samples, whose own level of write protect is of no account.
    pub fn samples(&mut self, samples: &[u8]) -> &mut Moves {
        let still = self.still;
        let events = samples.iter().map(|&sample| (vec![4, sample], still));
        self.events.extend(events);
        self
    }

    /// From here on it is to stand still, or need not.
    pub fn still(&mut self, still: bool) -> &mut Moves {
        self.still = still;
        self
    }

    /// From either level it is moved nowhere, at each event alone, and from each event on at all.
    pub fn check(&self) {
        for level in [0, self.pin] {
            assert!(!self.check_moves(level, |_| false));
            for one in 0..self.events.len() {
                self.check_moves(level, |at| at == one);
                self.check_moves(level, |at| at >= one);
            }
        }
    }

    /// Whether any event has the flag. The flags must be the model's and the ledger's, and the first
    /// must be that of a run.
    fn check_moves(&self, level: u8, moves: impl Fn(usize) -> bool) -> bool {
        let (events, flags) = self.moved(level, moves);
        let about = |at: usize| format!("part {}, event {at} of {events:02x?}", self.part);
        let (_, mut model) = Model::make(self.part, 0, 0);
        let mut memory = first_memory(model.part().size);
        let mut ledger = Ledger::begin(self.part, 0, 0, &memory);
        let ran = model
            .clone()
            .run_each(&events.concat(), u64::MAX, &mut memory.clone(), |_| ());
        for (at, (event, &flag)) in events.iter().zip(&flags).enumerate() {
            let (number, answer, given) = model.event(event, &mut memory);
            assert_eq!((number, given), (0, flag), "{}", about(at));
            let told = ledger.feed(event, answer);
            assert_eq!(told, flag, "the ledger: {}", about(at));
        }
        let first = flags.iter().position(|&flag| flag);
        let place = events[..first.unwrap_or(events.len())].concat().len();
        let expected = (0, place as u64);
        assert_eq!((ran.number, ran.flag), expected, "{}", about(0));
        first.is_some()
    }

    /// The events with the pin at this level, moved where that is told and there is a sample, and
    /// their flags.
    fn moved(&self, level: u8, moves: impl Fn(usize) -> bool) -> (Vec<Vec<u8>>, Vec<bool>) {
        let mut level = level;
        let each = self.events.iter().enumerate().map(|(at, (event, warned))| {
            let mut event = event.clone();
            if matches!(event[0], 3 | 5) {
                return (event, false);
            }
            let moved = moves(at);
            level ^= if moved { self.pin } else { 0 };
            event[1] = event[1] & !self.pin | level;
            (event, moved && *warned)
        });
        each.unzip()
    }
}
