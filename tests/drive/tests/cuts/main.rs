//! Demand 3 at the proved build's pins: power is cut after every single event of a trace, and
//! before the first. What memory and saved bits are then is told by the ledger, by selections and
//! starts; no model of the twin is asked. So is the flag offset, after each event. Then lists of
//! selections as bytes, cut after each. `late` has the cuts around the last rise of a data byte.

mod late;

use drive::script::{self, Script};
use drive::told::Told;
use drive::{Making, Ran};
use twin::gen::{self, Case, Rng};
use twin::part::Wires;
use twin::pins::spelled;
use twin::text::first_memory;
use twin::trace::events;
use twin::{Ledger, Part, PARTS};

/// A trace on the proved build, from the first memory.
struct Bench {
    making: Making,
    part: &'static Part,
    first: Vec<u8>,
    memory: Vec<u8>,
    answers: Vec<u8>,
}

impl Bench {
    fn new(making: Making) -> Bench {
        let part = &PARTS[making.part as usize];
        Bench {
            making,
            part,
            first: first_memory(part.size),
            memory: vec![0; part.size],
            answers: Vec::new(),
        }
    }

    /// What the run gives back; memory and answers stay to be looked at.
    fn run(&mut self, trace: &[u8]) -> Ran {
        self.memory.copy_from_slice(&self.first);
        self.answers.clear();
        self.answers.resize(trace.len(), 0xff);
        let answers = Some(&mut self.answers[..]);
        drive::run(self.making, u64::MAX, trace, &mut self.memory, answers)
    }

    /// A selection as bytes after the trace; the memory stays to be looked at.
    fn select(&mut self, trace: &[u8], wp: bool, input: &[u8]) -> u8 {
        self.memory.copy_from_slice(&self.first);
        let (wp, mut output) = (u32::from(wp), vec![0; input.len()]);
        let selected = drive::select(self.making, trace, wp, input, &mut output, &mut self.memory);
        selected.number
    }

    /// The ledger before any event.
    fn ledger(&self) -> Told {
        Told::begin(self.making, &self.first)
    }

    /// Any address of the part.
    fn address(&self, rng: &mut Rng) -> usize {
        rng.below(self.part.size as u64) as usize
    }

    /// Cuts after the events of `front` and looks at what the ledger says is left: the whole
    /// memory, the status register of a SPI part, and one byte as the bus shows it. The look holds WP
    /// still, so the flag offset is that of `front`.
    fn cut(&mut self, front: &[u8], powered: bool, told: &Told, address: usize) {
        let ledger = &told.ledger;
        let before = events(front).count();
        let look = Look::after_cut(self.part, self.making.pins, powered, address);
        let whole = [front, look.script.trace()].concat();
        let ran = self.run(&whole);
        let all = Ran {
            number: 0,
            count: (before + look.script.events()) as u64,
            offset: whole.len() as u64,
            flag: told.flag(&whole),
        };
        assert_eq!(ran, all, "{whole:x?}");
        assert!(self.memory == ledger.memory(), "memory: {whole:x?}");
        let shown = &self.answers[before..];
        let expected = (ledger.bits_after_cut(), ledger.memory()[address]);
        assert_eq!(look.seen(shown), expected, "{whole:x?}");
    }
}

/// What is asked of a part after a cut.
struct Look {
    script: Script,
    /// Where the status register is shown; an I2C part has none.
    status: Option<script::Places>,
    byte: script::Places,
}

impl Look {
    /// A cut (without power there is nothing to cut), power on, RDSR on SPI, and a read.
    fn after_cut(part: &Part, pins: u32, powered: bool, address: usize) -> Look {
        let mut script = Script::default();
        if powered {
            script.power_off();
        }
        match part.wires {
            Wires::Spi => {
                script.spi_on();
                let status = Some(script.ask_status());
                let byte = script.ask(&part.addressed(3, address), 1)[0];
                Look {
                    script,
                    status,
                    byte,
                }
            }
            Wires::I2c => {
                script.i2c_on(address as u32);
                script.start();
                script.give(read_word(part, pins, address));
                let byte = script.take(false);
                Look {
                    script,
                    status: None,
                    byte,
                }
            }
        }
    }

    /// SRWD BP1 BP0 (0 on I2C) and the byte, by these answers. WEL must be 0 after a power on.
    fn seen(&self, answers: &[u8]) -> (u8, u8) {
        let Some(status) = &self.status else {
            return (0, script::line(answers, &self.byte));
        };
        let driven = |places| script::driven(answers, places).expect("a byte is driven");
        let status = driven(status);
        assert_eq!(status & !0x8c, 0, "status {status:02x}");
        (status >> 5 | status >> 2 & 3, driven(&self.byte))
    }
}

/// The word that reads at an address of the upper or lower half of part 4.
fn read_word(part: &Part, pins: u32, address: usize) -> u8 {
    let place = if part.number == 3 {
        pins
    } else {
        pins << 1 | address as u32 >> 16
    };
    0xa1 | (place as u8) << 1
}

/// Cuts a trace after each of its accepted events; how often the ledger changed, and whether it has
/// a flag.
fn follow(case: &Case, rng: &mut Rng) -> (u64, bool) {
    let mut bench = Bench::new(Making::new(case.part, case.pins, case.bits));
    let count = bench.run(&case.trace).count as usize;
    let answers = bench.answers[..count].to_vec();
    let mut told = bench.ledger();
    let (mut at, mut powered, mut changes) = (0, false, 0);
    bench.cut(&[], powered, &told, 0);
    for (event, answer) in events(&case.trace).zip(answers) {
        let before = told.ledger.clone();
        told.feed(event, answer);
        changes += changed(&before, &told.ledger).iter().sum::<u64>();
        powered = event[0] != 3;
        at += event.len();
        let address = bench.address(rng);
        bench.cut(&case.trace[..at], powered, &told, address);
    }
    (changes, told.flag(&case.trace) < case.trace.len() as u64)
}

/// Whether the memory changed between the two, and whether the bits did.
fn changed(before: &Ledger, after: &Ledger) -> [u64; 2] {
    let memory = before.memory() != after.memory();
    [memory, before.bits() != after.bits()].map(u64::from)
}

/// A list of selections as bytes on a SPI part. Each comes after a new making, with those before it as
/// their pin events. The memory that the call leaves is the ledger's; then the power is cut after the
/// same selection as pin events, and the ledger tells what is left of memory and bits. How often
/// either changed. (`image_cuts.rs` has them on one image.)
fn follow_list(making: Making, rng: &mut Rng) -> [u64; 2] {
    let mut bench = Bench::new(making);
    let mut told = bench.ledger();
    let mut trace = Script::spi().into_trace();
    told.feed(&trace, twin::NOTHING);
    let mut changes = [0, 0];
    for (wp, input) in list(making.part, rng) {
        assert_eq!(bench.select(&trace, wp, &input), 0, "{trace:x?} {input:x?}");
        let by_bytes = bench.memory.clone();
        let count = events(&trace).count();
        trace.extend(spelled(wp, &input));
        bench.run(&trace);
        let before = told.ledger.clone();
        let its_own = events(&trace).zip(&bench.answers).skip(count);
        its_own.for_each(|(event, &answer)| told.feed(event, answer));
        let ledger = &told.ledger;
        assert!(by_bytes == ledger.memory(), "memory: {trace:x?} {input:x?}");
        changes = added(changes, changed(&before, ledger));
        let address = bench.address(rng);
        bench.cut(&trace, true, &told, address);
    }
    changes
}

fn added(one: [u64; 2], two: [u64; 2]) -> [u64; 2] {
    [one[0] + two[0], one[1] + two[1]]
}

/// Some selections, each with its level of WP#; most of them have an enable before them.
fn list(part: u32, rng: &mut Rng) -> Vec<(bool, Vec<u8>)> {
    let mut list = Vec::new();
    for _ in 0..1 + rng.below(12) {
        if rng.chance(800) {
            list.push((rng.chance(500), vec![6]));
        }
        list.push((rng.chance(500), gen::selection_bytes(rng, part)));
    }
    list
}

/// So many lists of a part, cut after each selection. Many change the memory, and many the bits.
fn follow_lists(part: u32, lists: u64) {
    let mut rng = Rng::new(0xb075 + u64::from(part));
    let mut changes = [0, 0];
    for _ in 0..lists {
        let any = rng.below(u64::from(PARTS[part as usize].max_bits) + 1) as u32;
        let making = Making::new(part, 0, rng.pick(&[0, any]));
        changes = added(changes, follow_list(making, &mut rng));
    }
    assert!(changes.iter().all(|&it| 4 * it > lists), "{changes:?}");
}

/// So many traces of a part, cut everywhere. Many have a flag, and many have none.
fn follow_part(part: u32, traces: u64) {
    let mut rng = Rng::new(0xc075 + u64::from(part));
    let (mut changes, mut flags) = (0, 0);
    for _ in 0..traces {
        let case = gen::case_of(&mut rng, part);
        let (changed, flagged) = follow(&case, &mut rng);
        changes += changed;
        flags += u64::from(flagged);
    }
    assert!(changes > traces, "only {changes} writes");
    let fewer = flags.min(traces - flags);
    assert!(4 * fewer > traces, "{flags} flags in {traces} traces");
}

#[test]
fn part_0() {
    follow_part(0, 100);
}

#[test]
fn part_1() {
    follow_part(1, 40);
}

#[test]
fn part_2() {
    follow_part(2, 40);
}

#[test]
fn part_3() {
    follow_part(3, 100);
}

#[test]
fn part_4() {
    follow_part(4, 40);
}

#[test]
fn lists_of_part_0() {
    follow_lists(0, 200);
}

#[test]
fn lists_of_part_1() {
    follow_lists(1, 100);
}

#[test]
fn lists_of_part_2() {
    follow_lists(2, 100);
}
