//! What a model tells of itself, and that each of its calls does what the others do: runs in pieces,
//! single events, a replay, and a selection as bytes beside its samples.

mod common;
mod traces;

use common::{power_on, Chip};
use sildrokk::trace::{i2c, spi, Event};
use sildrokk::{Answer, Answered, Driven, Model, Part, Ran, Refusal};
use traces::{addressed, byte, samples, selection, session, BYTES, START, STOP, WRITTEN};

const SPI_PARTS: [Part; 3] = [Part::Mr45v032a, Part::Mr45v100a, Part::Mr45v200b];

fn run(chip: &mut Chip, trace: &[u8], quota: u64) -> Ran {
    chip.model.run(trace, quota, &mut chip.memory)
}

/// Where each event of a trace begins.
fn places(trace: &[u8]) -> Vec<usize> {
    let next = |&at: &usize| Event::read(&trace[at..]).map(|(_, length)| at + length);
    let ends = std::iter::successors(Some(0), next);
    ends.filter(|&at| at < trace.len()).collect()
}

/// A trace one event at a time: what each gave.
fn singly(chip: &mut Chip, trace: &[u8]) -> Vec<Answered> {
    let mut event = |at: usize| chip.model.event(&trace[at..], &mut chip.memory);
    let mut accepted = |at| event(at).expect("the trace has no refused event");
    places(trace).into_iter().map(&mut accepted).collect()
}

/// A part under power, with its wires at rest.
fn powered(part: Part) -> Chip {
    let mut chip = Chip::new(part);
    singly(&mut chip, &power_on(part.bus()));
    chip
}

/// A session in one run.
fn whole(part: Part) -> (Vec<u8>, Chip, Ran) {
    let (trace, mut chip) = (session(part), Chip::new(part));
    let ran = run(&mut chip, &trace, u64::MAX);
    (trace, chip, ran)
}

/// The sessions are what the tests below take them for.
#[test]
fn sessions() {
    for part in Part::ALL {
        let (trace, chip, ran) = whole(part);
        let all = (None, places(&trace).len() as u64, trace.len() as u64);
        assert_eq!((ran.refusal, ran.count, ran.offset), all, "{part}");
        assert!(ran.warning.is_some(), "{part}");
        assert_eq!(chip.memory[WRITTEN..][..2], BYTES, "{part}");
    }
}

#[test]
fn part_and_power() {
    for part in Part::ALL {
        let told = |chip: &Chip| (chip.model.part(), chip.model.powered());
        let (first, mut chip) = (Chip::new(part), powered(part));
        assert_eq!(told(&first), (Some(part), false));
        assert_eq!(told(&chip), (Some(part), true));
        // Every wire low is not power off.
        singly(&mut chip, &samples(&[0]));
        assert_eq!(told(&chip), (Some(part), true));
        singly(&mut chip, &[0x03]);
        assert!(chip == first, "{part}");
    }
}

#[test]
fn no_part() {
    for number in 5..=u8::MAX {
        let mut image = *Chip::new(Part::Mr45v032a).model.image();
        image[0] = number;
        assert_eq!(Model::from_image(image).part(), None, "{number}");
    }
}

/// A model that is kept as its image between any two events goes on as if it had not been.
#[test]
fn images() {
    for part in Part::ALL {
        let (trace, end, _) = whole(part);
        let mut chip = Chip::new(part);
        for at in places(&trace) {
            let model = Model::from_image(*chip.model.image());
            assert_eq!(model, chip.model, "{part} {at}");
            chip.model = model;
            assert_eq!(run(&mut chip, &trace[at..], 1).refusal, None);
        }
        assert!(chip == end, "{part}");
    }
}

/// A selection as bytes: what came back, and which of it is driven.
fn selected(chip: &mut Chip, wp: bool, input: &[u8]) -> (Vec<u8>, Driven) {
    let mut output = vec![0; input.len()];
    let memory = &mut chip.memory;
    let driven = chip.model.select(wp, input, &mut output, memory);
    (output, driven.expect("an SPI part at rest"))
}

/// The pins are those that the part was made with, with power and without.
#[test]
fn pins() {
    for part in [Part::Mr44v064b, Part::Ms85rc1mty] {
        for pins in 0..=part.max_pins() {
            let mut chip = Chip::new(part);
            chip.model = Model::new(part, pins, 0).expect("pins that the part can have");
            assert_eq!(chip.model.pins(), pins, "{part}");
            singly(&mut chip, &power_on(part.bus()));
            assert_eq!(chip.model.pins(), pins, "{part}");
        }
    }
}

/// The bits are those of the status register, and without power those of which the part can be made again.
#[test]
fn bits() {
    for part in SPI_PARTS {
        for bits in 0..8 {
            let status = (bits >> 2 << 7 | (bits & 3) << 2) as u8;
            let mut chip = powered(part);
            selected(&mut chip, true, &[0x06]);
            selected(&mut chip, true, &[0x01, status]);
            assert_eq!(chip.model.bits(), bits, "{part}");
            let (shown, _) = selected(&mut chip, true, &[0x05, 0]);
            assert_eq!(shown[1], status, "{part}");
            singly(&mut chip, &[0x03]);
            let kept = bits.min(part.max_bits());
            assert_eq!(chip.model.bits(), kept, "{part}");
            assert_eq!(Model::new(part, 0, kept), Ok(chip.model), "{part}");
        }
    }
}

/// The letters of the answers to these samples.
fn letters(chip: &mut Chip, samples: &[u8]) -> String {
    let given = singly(chip, samples).into_iter();
    given.map(|it| it.answer.to_string()).collect()
}

/// What SO shows before each rise of SCK: nothing while command and address go in, then the byte at A5h,
/// which is A5h; and nothing once CS# is high.
#[test]
fn answers_on_spi() {
    let mut chip = powered(Part::Mr45v032a);
    let letters = letters(&mut chip, &selection(true, &[0x03, 0x00, 0xa5, 0x00]));
    let before_rises: String = letters.chars().step_by(2).take(32).collect();
    assert_eq!(before_rises, format!("{}10100101", "Z".repeat(24)));
    assert!(letters.ends_with('Z'));
}

/// The part pulls SDA from the fall after its word's eighth bit to that after the ninth; with another
/// part's word it does nothing.
#[test]
fn answers_on_i2c() {
    let quiet = "Z".repeat(START.len() + 23);
    for (word, acknowledge) in [(0xa0, "000Z"), (0xa2, "ZZZZ")] {
        let mut chip = powered(Part::Mr44v064b);
        let letters = letters(&mut chip, &samples(&[&START[..], &byte(word, 1)].concat()));
        assert_eq!(letters, format!("{quiet}{acknowledge}"), "{word:x}");
    }
}

/// Which of these samples are warned of, by the event and by the run.
fn warnings(part: Part, wires: &[u8]) -> Vec<usize> {
    let (mut chip, trace) = (powered(part), samples(wires));
    let first = run(&mut chip.clone(), &trace, u64::MAX).warning;
    let given = singly(&mut chip, &trace);
    let warned = given.iter().enumerate().filter(|(_, it)| it.warning);
    let warned: Vec<usize> = warned.map(|(place, _)| place).collect();
    assert_eq!(first, warned.first().map(|&it| places(&trace)[it] as u64));
    warned
}

/// WP# is to be still while CS# is low in both samples, and WP from START to STOP.
#[test]
fn moves_of_the_protect_pin() {
    let (rest, low, high) = (spi::HOLD | spi::CS, spi::HOLD, spi::HOLD | spi::WP);
    let wires = [rest, high, low, low, high, rest, rest | spi::WP];
    assert_eq!(warnings(Part::Mr45v100a, &wires), [2, 4]);
    let (idle, protected) = (i2c::SCL | i2c::SDA, i2c::SCL | i2c::SDA | i2c::WP);
    let (before, within) = ([protected, idle], [i2c::WP, i2c::WP, 0]);
    let wires = [&before, &START[..], &within, &STOP, &[protected]].concat();
    assert_eq!(warnings(Part::Ms85rc1mty, &wires), [6, 8]);
}

/// Two runs as one.
fn joined(first: Ran, rest: Ran) -> Ran {
    let later = rest.warning.map(|at| first.offset + at);
    Ran {
        refusal: rest.refusal,
        count: first.count + rest.count,
        offset: first.offset + rest.offset,
        warning: first.warning.or(later),
    }
}

/// A piece that ends within an event says so, and the rest goes on from its offset.
#[test]
fn pieces_of_every_length() {
    for part in Part::ALL {
        let (trace, end, ran) = whole(part);
        let places = places(&trace);
        for split in 0..=trace.len() {
            let mut chip = Chip::new(part);
            let first = run(&mut chip, &trace[..split], u64::MAX);
            let within = split < trace.len() && !places.contains(&split);
            assert_eq!(first.refusal, within.then_some(Refusal::Incomplete));
            let rest = run(&mut chip, &trace[first.offset as usize..], u64::MAX);
            assert_eq!(joined(first, rest), ran, "{part} {split}");
            assert!(chip == end, "{part} {split}");
        }
    }
}

/// The same with a first run that is stopped after so many events.
#[test]
fn pieces_of_every_count() {
    for part in Part::ALL {
        let (trace, end, ran) = whole(part);
        for quota in 0..=ran.count {
            let mut chip = Chip::new(part);
            let first = run(&mut chip, &trace, quota);
            assert_eq!((first.refusal, first.count), (None, quota));
            let rest = run(&mut chip, &trace[first.offset as usize..], u64::MAX);
            assert_eq!(joined(first, rest), ran, "{part} {quota}");
            assert!(chip == end, "{part} {quota}");
        }
    }
}

/// Single events are what a run is made of, and a replay is a run that also writes their answers, as far
/// as there is room.
#[test]
fn replays() {
    for part in Part::ALL {
        let (trace, end, _) = whole(part);
        let mut chip = Chip::new(part);
        let given = singly(&mut chip, &trace);
        assert!(chip == end, "{part}");
        let answers: Vec<u8> = given.iter().map(|it| it.answer as u8).collect();
        let numbers = [0, 1, answers.len() - 1, answers.len(), answers.len() + 3];
        let pairs = numbers
            .iter()
            .flat_map(|&it| numbers.map(|room| (it, room)));
        for (quota, room) in pairs {
            replayed(part, &trace, quota, &answers, room);
        }
    }
}

/// A replay of so many events, which all have these answers, with room for so many.
fn replayed(part: Part, trace: &[u8], quota: usize, answers: &[u8], room: usize) {
    const LEFT: u8 = 0xa5;
    let mut expected = answers[..quota.min(answers.len())].to_vec();
    expected.resize(room, LEFT);
    let (mut by_run, mut by_replay) = (Chip::new(part), Chip::new(part));
    let ran = run(&mut by_run, trace, quota as u64);
    let Chip { model, memory } = &mut by_replay;
    let mut answers = vec![LEFT; room];
    let replayed = model.replay(trace, quota as u64, memory, &mut answers);
    assert_eq!((replayed, answers), (ran, expected), "{part} {quota}");
    assert!(by_replay == by_run, "{part} {quota} {room}");
}

/// What comes back while so many bytes go in, by what the samples of the selection give: each bit is the
/// answer before its rise, and 1 where nothing is driven.
fn back(given: &[Answered], length: usize) -> (Vec<u8>, Driven) {
    let before_rises = given.iter().map(|it| it.answer).step_by(2).take(8 * length);
    let bits: Vec<Answer> = before_rises.collect();
    let bytes = bits.chunks(8);
    let bit = |sum, it: &Answer| sum << 1 | u8::from(*it != Answer::Low);
    let output = bytes.clone().map(|eight| eight.iter().fold(0, bit));
    let driven = |eight: &&[Answer]| eight.iter().any(|it| *it != Answer::Nothing);
    let first = bytes.clone().position(|eight| driven(&eight));
    let driven = Driven {
        first: first.unwrap_or(length) as u64,
        count: bytes.clone().filter(driven).count() as u64,
    };
    (output.collect(), driven)
}

/// Selections that enable, write, read, show and protect, with WP# high or low.
fn selections(part: Part) -> Vec<(bool, Vec<u8>)> {
    let (at, top) = (WRITTEN as u32, part.size() as u32 - 1);
    let commands = [
        vec![0x06],
        addressed(part, 0x02, at, &BYTES),
        vec![0x06],
        // From the top address it goes on at 0.
        addressed(part, 0x02, top, &[0x99, 0xaa]),
        addressed(part, 0x03, top, &[0; 3]),
        vec![0x06],
        vec![0x05, 0, 0],
        vec![0x01, 0x8c],
        vec![0x06],
        addressed(part, 0x02, at, &[0x55]),
        vec![0x01, 0x00],
        vec![],
    ];
    let both = |input: Vec<u8>| [(true, input.clone()), (false, input)];
    commands.into_iter().flat_map(both).collect()
}

/// A selection as bytes gives and leaves what its samples do.
#[test]
fn selections_and_their_samples() {
    for part in SPI_PARTS {
        let mut by_bytes = powered(part);
        let mut by_samples = by_bytes.clone();
        for (wp, input) in selections(part) {
            let ours = selected(&mut by_bytes, wp, &input);
            let given = singly(&mut by_samples, &selection(wp, &input));
            assert_eq!(ours, back(&given, input.len()), "{part} {input:x?}");
            assert!(by_bytes == by_samples, "{part} {input:x?}");
        }
        let memory = &by_bytes.memory;
        assert_eq!(memory[WRITTEN..][..2], BYTES, "{part}");
        assert_eq!((memory[part.size() - 1], memory[0]), (0x99, 0xaa), "{part}");
    }
}

/// A copy is a chip of its own.
#[test]
fn copies() {
    let chip = powered(Part::Mr45v032a);
    let mut copy = chip.clone();
    selected(&mut copy, true, &[0x06]);
    assert!(copy.model != chip.model && chip == powered(Part::Mr45v032a));
}
