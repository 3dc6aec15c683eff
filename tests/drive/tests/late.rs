//! Ask 6 through the calls, on images: a finished data byte of WRITE waits on part 1 and is stored with
//! the next counted rise or as CS# rises. States and memories are written by hand here, or told from the
//! wires alone (`drive::late`); beside that each call is compared with the twin.

use drive::ask::Ask;
use drive::held::{Held, Pair};
use drive::late::{writes, Write, LATE};
use drive::phases::{PHASE, WAITING};
use drive::script::{addressed, Script};
use drive::tried::{self, Memories};
use drive::waits::Waits;
use drive::Making;
use sildrokk::calls::{RESULT, STATE};
use twin::text::{first_byte, first_memory};
use twin::trace::events;
use twin::PARTS;

const SIZE: usize = 0x20000;

/// The bytes of a dump; those that it leaves out at the end are 0.
fn dump(text: &str) -> Vec<u8> {
    let byte = |word| u8::from_str_radix(word, 16).expect(text);
    let mut state: Vec<u8> = text.split_whitespace().map(byte).collect();
    state.resize(STATE, 0);
    state
}

/// 77h waits for the top address; the enable is there, SCK is low.
const TOP: &str = "01 00 02 01 18 02 00 34  00 00 00 00 01 ff ff 77";
/// The same with the upper half protected, and with no enable.
const PROTECTED: &str = "01 00 0a 01 18 02 00 34  00 00 00 00 01 ff ff 77";
const NOT_ENABLED: &str = "01 00 00 01 18 02 00 34  00 00 00 00 01 ff ff 77";

/// A state, an event, the state after it, and whether 77h is at the top then.
const STEPS: [(&str, &[u8], &str, bool); 22] = [
    // The next counted rise, with either bit.
    (
        TOP,
        &[4, 0x1a],
        "01 00 02 01 1a 02 00 15  01 00 00 00 00 00 00 01",
        true,
    ),
    (
        TOP,
        &[4, 0x1e],
        "01 00 02 01 1e 02 00 15  01 00 00 01 00 00 00 01",
        true,
    ),
    (
        PROTECTED,
        &[4, 0x1e],
        "01 00 0a 01 1e 02 00 15  01 00 00 01 00 00 00 01",
        false,
    ),
    (
        NOT_ENABLED,
        &[4, 0x1e],
        "01 00 00 01 1e 02 00 15  01 00 00 01 00 00 00 01",
        false,
    ),
    // CS# rises, by itself or with another wire.
    (TOP, &[4, 0x19], "01 00 00 01 19 02", true),
    (TOP, &[4, 0x1b], "01 00 00 01 1b 02", true),
    (TOP, &[4, 0x09], "01 00 00 01 09 02", true),
    (TOP, &[4, 0x11], "01 00 00 01 11 02", true),
    (PROTECTED, &[4, 0x19], "01 00 08 01 19 02", false),
    (NOT_ENABLED, &[4, 0x19], "01 00 00 01 19 02", false),
    // In a hold, asleep, and with a bit driven.
    (
        "01 00 02 01 0a 02 00 34  00 00 00 00 01 ff ff 77",
        &[4, 0x0b],
        "01 00 00 01 0b 02",
        true,
    ),
    (
        "01 00 02 01 18 01 01 34  00 00 00 00 01 ff ff 77",
        &[4, 0x19],
        "01 00 00 01 19 02",
        true,
    ),
    (
        "01 00 02 01 18 01 01 34  00 00 00 00 01 ff ff 77",
        &[4, 0x1a],
        "01 00 02 01 1a 01 01 15  01 00 00 00 00 00 00 01",
        true,
    ),
    // What leaves it waiting: the same wires, SI, WP#, HOLD# with SCK, an expected answer.
    (TOP, &[4, 0x18], TOP, false),
    (
        TOP,
        &[4, 0x1c],
        "01 00 02 01 1c 02 00 34  00 00 00 00 01 ff ff 77",
        false,
    ),
    (
        TOP,
        &[4, 0x10],
        "01 00 02 01 10 02 00 34  00 00 00 00 01 ff ff 77",
        false,
    ),
    (
        TOP,
        &[4, 0x0a],
        "01 00 02 01 0a 02 00 34  00 00 00 00 01 ff ff 77",
        false,
    ),
    (
        "01 00 02 01 08 02 00 34  00 00 00 00 01 ff ff 77",
        &[4, 0x1a],
        "01 00 02 01 1a 02 00 34  00 00 00 00 01 ff ff 77",
        false,
    ),
    (
        "01 00 02 01 1a 02 00 34  00 00 00 00 01 ff ff 77",
        &[4, 0x18],
        TOP,
        false,
    ),
    (TOP, &[5, 2], TOP, false),
    // A power off loses it, and so does CS# falling in a state that had it 1.
    (TOP, &[3], "01", false),
    (
        "01 00 02 01 19 02 00 34  00 00 00 00 01 ff ff 77",
        &[4, 0x18],
        "01 00 02 01 18 02 00 10",
        false,
    ),
];

/// The event as each of the calls that take one.
fn as_calls(event: &[u8]) -> [Ask; 3] {
    let (trace, quota) = (event.to_vec(), 1);
    [
        Ask::Event(event.to_vec()),
        Ask::Run {
            trace: trace.clone(),
            quota,
        },
        Ask::Replay {
            trace,
            quota,
            room: 1,
        },
    ]
}

/// A call on a state, and what it leaves.
fn step(before: &str, ask: &Ask, after: &str, stored: bool) {
    let mut held = Held {
        state: dump(before),
        memory: first_memory(SIZE),
    };
    assert_eq!(held.ask(ask).number, 0, "{before}, {ask:x?}");
    assert_eq!(held.state, dump(after), "{before}, {ask:x?}");
    let mut expected = first_memory(SIZE);
    if stored {
        expected[SIZE - 1] = 0x77;
    }
    assert!(held.memory == expected, "{before}, {ask:x?}");
}

#[test]
fn one_event_on_a_waiting_state() {
    for (before, event, after, stored) in STEPS {
        let calls = as_calls(event);
        calls
            .iter()
            .for_each(|ask| step(before, ask, after, stored));
    }
}

/// A place of the waiting state, and values there that make it none: another part, no power, each number
/// out of its range, each byte that is not used.
const WRONG: [(usize, &[u8]); 19] = [
    (0, &[0, 2, 3, 4, 5]),
    (1, &[1, 255]),
    (2, &[0x03, 0x12, 0xff]),
    (3, &[0, 2, 3]),
    (4, &[32, 255]),
    (5, &[3, 255]),
    (6, &[2, 255]),
    (7, &[0x35, 0x24, 0x3f]),
    (8, &[1, 7, 8, 255]),
    (9, &[1, 255]),
    (10, &[1, 255]),
    (11, &[1, 255]),
    (12, &[2, 3, 255]),
    (16, &[1, 255]),
    (18, &[1, 255]),
    (19, &[1, 255]),
    (20, &[1, 255]),
    (27, &[1, 255]),
    (31, &[1, 255]),
];

/// A call of each kind.
fn every_call() -> [Ask; 4] {
    let [event, run, replay] = as_calls(&[4, 0x1a]);
    let select = Ask::Select {
        wp: 1,
        input: vec![6],
        room: 1,
    };
    [event, run, replay, select]
}

#[test]
fn waiting_states_that_are_none() {
    let mut memory = first_memory(SIZE);
    let wrong = WRONG.iter().flat_map(|&(at, values)| {
        let with = move |&value: &u8| {
            let mut state = dump(TOP);
            state[at] = value;
            state
        };
        values.iter().map(with)
    });
    // The other SPI parts at an address of their own, and the part's size itself.
    let others = [
        "00 00 02 01 18 02 00 34",
        "02 00 02 01 18 02 00 34",
        "01 00 02 01 18 02 00 34  00 00 00 00 02 00 00 77",
    ];
    for state in wrong.chain(others.map(dump)) {
        let mut refused = |ask| tried::refused(&state, ask, RESULT, &mut memory);
        let all = every_call().iter().try_for_each(&mut refused);
        assert_eq!(all, Ok(()), "{state:x?}");
    }
    assert!(memory == first_memory(SIZE));
}

/// Every byte may wait, and at every address; a selection as bytes is refused with 12 while CS# is 0,
/// and the byte waits on.
#[test]
fn every_waiting_state_is_taken() {
    let mut memories = Memories::first();
    let part = &PARTS[LATE as usize];
    let addresses = (0..17).map(|bit| 1 << bit).chain([0, SIZE - 1]);
    let places = addresses.flat_map(|address| [0x00, 0xff, 0xa5].map(|byte| (address, byte)));
    for (address, byte) in places.chain((0..=255).map(|byte| (0x123, byte))) {
        let mut state = dump(TOP);
        state[12..15].copy_from_slice(&(address as u32).to_be_bytes()[1..]);
        state[15] = byte;
        let taken = tried::each(&state, part, &every_call(), 0, &mut memories);
        assert_eq!(taken, Ok(()));
        let select = &every_call()[3];
        let gave = select.call(&mut state.clone(), &mut first_memory(SIZE), RESULT);
        assert_eq!(gave.number, 12);
    }
    assert_eq!(memories.compare(), Ok(()));
}

/// A trace in two runs on one image, with a split behind so many events. The memory between is told from
/// the wires, and both runs together leave what one run leaves. Whether a byte waited between.
fn split(write: &Write, whole: &Held, count: usize) -> bool {
    let (front, rest) = write.trace.split_at(2 * count);
    let mut pair = Pair::new(write.making);
    let run = |trace: &[u8]| Ask::Run {
        trace: trace.to_vec(),
        quota: u64::MAX,
    };
    let asked = pair.ask(&run(front));
    assert_eq!(asked.map(|gave| gave.number), Ok(0), "{count}");
    assert!(pair.held.memory == write.memory(count), "{count}");
    let waiting = write.waiting(count);
    let state = &pair.held.state;
    assert_eq!(state[PHASE] == WAITING, waiting.is_some(), "{state:x?}");
    if let Some(data) = waiting {
        let [_, high, middle, low] = (data.address as u32).to_be_bytes();
        assert_eq!(state[12..16], [high, middle, low, data.byte]);
    }
    let waited = waiting.is_some();
    let asked = pair.ask(&run(rest));
    assert_eq!(asked.map(|gave| gave.number), Ok(0), "{count}");
    assert!(pair.held == *whole, "{count}");
    waited
}

/// Split at every event around each byte.
fn splits(write: &Write) -> usize {
    let mut whole = Held::new(write.making);
    let run = Ask::Run {
        trace: write.trace.clone(),
        quota: u64::MAX,
    };
    assert_eq!(whole.ask(&run).number, 0);
    assert!(whole.memory == write.memory(write.events()));
    let around = write.around().into_iter();
    around.filter(|&count| split(write, &whole, count)).count()
}

/// On part 1 many splits fall where a byte waits; on the others none does.
#[test]
fn runs_split_at_every_event() {
    let all = |part| -> usize { writes(part).iter().map(splits).sum() };
    assert_eq!((all(0), all(2)), (0, 0));
    assert!(all(LATE) > 500, "only {}", all(LATE));
}

/// Single events up to each event around each byte, and with each what the state tells.
fn singly(write: &Write, waits: &mut Waits) {
    let mut pair = Pair::new(write.making);
    for (count, event) in (1..).zip(events(&write.trace)) {
        let before = pair.held.state.clone();
        let asked = pair.ask(&Ask::Event(event.to_vec()));
        assert_eq!(asked.map(|gave| gave.number), Ok(0), "{count}");
        waits.step(&before, &pair.held.state);
        assert!(pair.held.memory == write.memory(count), "{count}");
    }
}

/// Three bytes to a WRITE, the last of which CS# ends; holds are behind each byte of every other WRITE,
/// and at the end of one in four.
#[test]
fn single_events() {
    for part in 0..3 {
        let mut waits = Waits::default();
        let writes = writes(part);
        writes.iter().for_each(|write| singly(write, &mut waits));
        let all = writes.len() as u64;
        let met = Waits {
            reached: 3 * all,
            by_rise: 2 * all,
            by_cs: all,
            lost: 0,
            held: 3 * all / 2 + all / 4,
        };
        let expected = if part == LATE { met } else { Waits::default() };
        assert_eq!(waits, expected, "part {part}");
    }
}

fn select(pair: &mut Pair, input: &[u8]) -> (u8, Vec<u8>) {
    let ask = Ask::Select {
        wp: 1,
        input: input.to_vec(),
        room: input.len(),
    };
    let gave = pair.ask(&ask).unwrap_or_else(|it| panic!("{it}"));
    (gave.number, gave.shown)
}

fn run(pair: &mut Pair, trace: &[u8]) {
    let ask = Ask::Run {
        trace: trace.to_vec(),
        quota: u64::MAX,
    };
    let gave = pair.ask(&ask).unwrap_or_else(|it| panic!("{it}"));
    assert_eq!(gave.number, 0, "{trace:x?}");
}

/// WREN and a WRITE as bytes: the last byte is stored, since CS# has risen, and a cut loses none. Then the
/// same by pins up to its last rise, where a selection is refused, and CS# rising as a sample stores it.
fn bytes_then_pins(part: u32) {
    let mut pair = Pair::new(Making::new(part, 0, 0));
    run(&mut pair, &[1, 0x19]);
    let (at, late) = (0x7ff, part == LATE);
    let write = [addressed(part, 2, at), vec![0x11, 0x22]].concat();
    assert_eq!(select(&mut pair, &[6]).0, 0);
    assert_eq!(select(&mut pair, &write).0, 0);
    let cells = |pair: &Pair| [0, 1, 2].map(|more| pair.held.memory[at + more]);
    assert_eq!(cells(&pair), [0x11, 0x22, first_byte(at + 2)]);
    assert_eq!(pair.held.state[PHASE], 0);
    run(&mut pair, &[3, 1, 0x19]);
    assert_eq!(cells(&pair), [0x11, 0x22, first_byte(at + 2)]);
    assert_eq!(select(&mut pair, &[6]).0, 0);
    let mut script = Script::spi();
    script.select();
    script.bytes(&[addressed(part, 2, at), vec![0x33, 0x44, 0x55]].concat());
    run(&mut pair, &script.trace()[2..]);
    let last = if late { first_byte(at + 2) } else { 0x55 };
    assert_eq!(cells(&pair), [0x33, 0x44, last]);
    assert_eq!(select(&mut pair, &write).0, 12);
    assert_eq!(pair.held.state[PHASE] == WAITING, late);
    run(&mut pair, &[4, 0x1b]);
    assert_eq!(cells(&pair), [0x33, 0x44, 0x55]);
    let read = [addressed(part, 3, at), vec![0; 3]].concat();
    let (number, shown) = select(&mut pair, &read);
    assert_eq!(
        (number, &shown[read.len() - 3..]),
        (0, &[0x33, 0x44, 0x55][..])
    );
}

#[test]
fn selections_as_bytes_and_pins() {
    (0..3).for_each(bytes_then_pins);
}
