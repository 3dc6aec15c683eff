//! Demand 3 on one image: power is cut after every event and before the first, and after selections as
//! bytes among them, each time on a copy. What is left is, byte for byte, the image that a making with
//! the ledger's bits writes, and the ledger's memory; the twin's model is not asked.

use drive::ask::Ask;
use drive::held::Held;
use drive::late::{self, Write, LATE};
use drive::phases::{PHASE, WAITING};
use drive::{made, Making};
use twin::gen::{self, Case, Rng};
use twin::part::Wires;
use twin::pins::spelled;
use twin::trace::events;
use twin::{Ledger, PARTS};

/// A model on the proved build, with the ledger of what it accepted.
struct Followed {
    making: Making,
    held: Held,
    ledger: Ledger,
    powered: bool,
    /// Cuts that left another memory or other bits than the one before.
    changes: u64,
    /// Cuts while a data byte waited.
    waiting: u64,
}

impl Followed {
    fn new(making: Making) -> Followed {
        let held = Held::new(making);
        let Making { part, pins, bits } = making;
        Followed {
            making,
            ledger: Ledger::begin(part, pins, bits, &held.memory),
            held,
            powered: false,
            changes: 0,
            waiting: 0,
        }
    }

    /// A power off on a copy, which without power is refused and changes nothing.
    fn cut(&mut self) {
        self.waiting += u64::from(self.held.state[PHASE] == WAITING);
        let mut copy = self.held.clone();
        let gave = copy.ask(&Ask::Event(vec![3]));
        assert_eq!(gave.number, if self.powered { 0 } else { 7 });
        // Nothing driven and no flag, whether it is refused or not.
        let quiet = gave.result[0] == 2 && gave.result[1..].iter().all(|&byte| byte == 0);
        assert!(quiet, "{:x?}", gave.result);
        let fresh = Making {
            bits: u32::from(self.ledger.bits_after_cut()),
            ..self.making
        };
        assert_eq!(copy.state, made(fresh), "{:x?}", self.held.state);
        let same = copy.memory == self.ledger.memory();
        assert!(same, "memory after {:x?}", self.held.state);
    }

    /// One event, and a cut after it.
    fn event(&mut self, event: &[u8]) {
        self.take(event);
        self.cut();
    }

    /// One event. A refused one is not the ledger's.
    fn take(&mut self, event: &[u8]) {
        let gave = self.held.ask(&Ask::Event(event.to_vec()));
        if gave.number == 0 {
            let flag = self.feed(event, gave.result[0]);
            assert_eq!(gave.result[1], u8::from(flag), "{event:x?}");
            self.powered = event[0] != 3;
        }
    }

    /// An accepted event goes into the ledger; its flag.
    fn feed(&mut self, event: &[u8], answer: u8) -> bool {
        let before = self.ledger.clone();
        let flag = self.ledger.feed(event, answer);
        let same = before.memory() == self.ledger.memory() && before.bits() == self.ledger.bits();
        self.changes += u64::from(!same);
        flag
    }

    /// A selection as bytes, and a cut after it; whether it was taken. The ledger is fed the answers
    /// of the same selection as samples, on a copy, which leaves the same state and memory.
    fn select(&mut self, wp: bool, input: Vec<u8>) -> bool {
        let trace = spelled(wp, &input);
        let mut by_pins = self.held.clone();
        let select = Ask::Select {
            wp: u32::from(wp),
            room: input.len(),
            input,
        };
        let taken = self.held.ask(&select).number == 0;
        if taken {
            let replay = Ask::Replay {
                quota: u64::MAX,
                room: trace.len() / 2,
                trace: trace.clone(),
            };
            let gave = by_pins.ask(&replay);
            assert!(self.held == by_pins, "{select:x?}: not the same as by pins");
            for (event, answer) in events(&trace).zip(gave.shown) {
                assert!(!self.feed(event, answer), "{select:x?}: a flag");
            }
        }
        self.cut();
        taken
    }
}

/// A trace, on an SPI part with selections as bytes among its events; how often something changed, how
/// many selections were taken, and how many cuts came while a byte waited.
fn follow(case: &Case, rng: &mut Rng) -> [u64; 3] {
    let making = Making::new(case.part, case.pins, case.bits);
    let spi = PARTS[case.part as usize].wires == Wires::Spi;
    let mut followed = Followed::new(making);
    let mut taken = 0;
    followed.cut();
    for event in events(&case.trace) {
        followed.event(event);
        if spi && rng.chance(30) {
            if rng.chance(700) {
                taken += u64::from(followed.select(rng.chance(500), vec![6]));
            }
            let input = gen::selection_bytes(rng, case.part);
            taken += u64::from(followed.select(rng.chance(500), input));
        }
    }
    [followed.changes, taken, followed.waiting]
}

/// So many traces of a part. On part 1 many cuts come while a byte waits.
fn follow_part(part: u32, traces: u64) {
    let mut rng = Rng::new(0x1c075 + u64::from(part));
    let mut sum = [0; 3];
    for _ in 0..traces {
        let case = gen::case_of(&mut rng, part);
        let more = follow(&case, &mut rng);
        sum = [0, 1, 2].map(|at| sum[at] + more[at]);
    }
    let [changes, taken, waiting] = sum;
    assert!(changes > traces, "only {changes} changes");
    let spi = PARTS[part as usize].wires == Wires::Spi;
    assert_eq!(spi, taken > traces, "{taken} selections");
    let waited = if part == LATE {
        waiting > traces
    } else {
        waiting == 0
    };
    assert!(waited, "{waiting} while a byte waits");
}

/// A WRITE, cut after each event around the last rise of each data byte. What memory holds is also told
/// from the wires alone.
fn around_each_byte(write: &Write) -> u64 {
    let mut followed = Followed::new(write.making);
    let around = write.around();
    for (count, event) in (1..).zip(events(&write.trace)) {
        followed.take(event);
        if around.contains(&count) {
            followed.cut();
            let same = followed.held.memory == write.memory(count);
            assert!(same, "memory behind {count} events: {:x?}", write.trace);
        }
    }
    followed.waiting
}

/// On part 1 cuts come while a byte waits, and on the others none does.
#[test]
fn around_each_byte_of_a_write() {
    let all = |part| -> u64 { late::writes(part).iter().map(around_each_byte).sum() };
    assert_eq!((all(0), all(2)), (0, 0));
    let waiting = all(LATE);
    assert!(waiting > 500, "only {waiting}");
}

#[test]
fn part_0() {
    follow_part(0, 100);
}

#[test]
fn part_1() {
    follow_part(1, 40);
}

#[test]
fn part_2() {
    follow_part(2, 40);
}

#[test]
fn part_3() {
    follow_part(3, 100);
}

#[test]
fn part_4() {
    follow_part(4, 40);
}
