//! "Numbers given back": the order of the refusals, and that a refusal changes nothing.

mod common;

use common::Bus;
use twin::pins::spelled;
use twin::{Model, Ran, PARTS};

/// The number of an event on a clone; the state, the memory, the answer and the flag must show no
/// trace.
fn refused(model: &Model, event: &[u8], memory: &[u8]) -> u8 {
    let (mut after, mut cells) = (model.clone(), memory.to_vec());
    let (number, answer, flag) = after.event(event, &mut cells);
    if number != 0 {
        assert_eq!((&after, &cells[..]), (model, memory));
        assert_eq!((answer, flag), (2, false));
    }
    number
}

#[test]
fn making() {
    let (_, plain) = Model::make(0, 0, 0);
    for part in 0..8 {
        for pins in 0..10 {
            for bits in 0..10 {
                let pins_ok = pins <= [0, 0, 0, 7, 3, 0, 0, 0][part as usize];
                let bits_ok = bits <= [0, 7, 7, 0, 0, 0, 0, 0][part as usize];
                let (number, model) = Model::make(part, pins, bits);
                if part < 5 && pins_ok && bits_ok {
                    assert_eq!((number, model.part().number), (0, part));
                    assert_eq!((model.pins(), u32::from(model.bits())), (pins, bits));
                } else {
                    assert_eq!((number, model), (1, plain.clone()));
                }
            }
        }
    }
    assert_eq!(Model::make(u32::MAX, u32::MAX, u32::MAX).0, 1);
}

#[test]
fn the_memory_comes_first() {
    for part in &PARTS {
        let (_, mut model) = Model::make(part.number, 0, 0);
        for length in [0, part.size - 1, part.size + 1] {
            let mut memory = vec![0; length];
            for event in [
                [].as_slice(),
                &[9],
                &[4, 99],
                &[5, 99],
                &[3],
                &[1, 0],
                &[2, 0, 0, 0, 0],
                &[2, 0, 255, 255, 255],
            ] {
                assert_eq!(model.event(event, &mut memory), (3, 2, false));
                let none = Ran {
                    number: 3,
                    count: 0,
                    offset: 0,
                    flag: event.len() as u64,
                };
                assert_eq!(model.run(event, 0, &mut memory, &mut Vec::new()), none);
                assert_eq!(model.run(event, 5, &mut memory, &mut Vec::new()), none);
            }
        }
    }
}

/// A run of a part made with pins 0 and bits 0: the event that refuses it, with its number and how
/// far behind its kind byte the offset shows.
type Refusal = (&'static [u8], u8, u64);

/// Each event alone and in a run behind accepted ones, from which it must take nothing away. Bytes
/// behind the event change nothing.
fn check(part: u32, accepted: &[&[u8]], refusals: &[Refusal]) {
    let mut bus = Bus::make(part, 0, 0);
    let flags: Vec<bool> = accepted.iter().map(|event| bus.given(event).1).collect();
    let flagged = flags.iter().position(|&flag| flag);
    let before = accepted.concat();
    for &(event, number, behind) in refusals {
        let about = format!("part {part}, {event:?} behind {accepted:?}");
        assert_eq!(refused(&bus.model, event, &bus.memory), number, "{about}");
        // More bytes would make a whole event of one that is cut short.
        let more: &[u8] = if number == 5 { &[] } else { &[4, 0, 9] };
        let longer = [event, more].concat();
        assert_eq!(refused(&bus.model, &longer, &bus.memory), number, "{about}");
        let trace = [&before, event, more].concat();
        let mut ran = Bus::make(part, 0, 0);
        let given = ran
            .model
            .run(&trace, u64::MAX, &mut ran.memory, &mut Vec::new());
        let expected = Ran {
            number,
            count: accepted.len() as u64,
            offset: before.len() as u64 + behind,
            flag: flagged.map_or(trace.len(), |at| accepted[..at].concat().len()) as u64,
        };
        assert_eq!(given, expected, "{about}");
        assert_eq!(
            (ran.model, ran.memory),
            (bus.model.clone(), bus.memory.clone())
        );
    }
}

/// What is refused for its bytes alone, with power or without: 4 and 5, for which no field is looked
/// at, then 6, 10 and 11, which precede 7, 8 and 9. These are so on any part.
const ON_ANY: [Refusal; 11] = [
    (&[0], 4, 0),
    (&[6, 1, 1, 1], 4, 0),
    (&[255], 4, 0),
    (&[4], 5, 0),
    (&[5], 5, 0),
    (&[4, 32], 6, 1),
    (&[4, 128], 6, 1),
    (&[4, 255], 6, 1),
    (&[5, 3], 11, 1),
    (&[5, 4], 11, 1),
    (&[5, 255], 11, 1),
];

/// The same on the SPI parts.
const ON_SPI: [Refusal; 10] = [
    // The power on of the other bus: in range, each field bad, all bad, cut short.
    (&[2, 0, 0, 0, 0], 4, 0),
    (&[2, 255, 0, 0, 0], 4, 0),
    (&[2, 0, 255, 255, 255], 4, 0),
    (&[2, 255, 255, 255, 255], 4, 0),
    (&[2, 255], 4, 0),
    (&[1], 5, 0),
    (&[1, 32], 6, 1),
    (&[1, 33], 6, 1),
    (&[1, 64], 6, 1),
    (&[1, 255], 6, 1),
];

/// The same on the I2C parts; the start addresses are bad on both.
const ON_I2C: [Refusal; 21] = [
    (&[1, 0], 4, 0),
    (&[1, 255], 4, 0),
    (&[1], 4, 0),
    (&[2], 5, 0),
    // Cut short, with a bad sample, a bad address as far as it goes, and both.
    (&[2, 8], 5, 0),
    (&[2, 8, 0, 0], 5, 0),
    (&[2, 0, 255], 5, 0),
    (&[2, 0, 255, 255], 5, 0),
    (&[2, 8, 255], 5, 0),
    (&[2, 255, 255, 255], 5, 0),
    (&[2, 8, 0, 0, 0], 6, 1),
    (&[2, 31, 0, 0x1f, 0xff], 6, 1),
    (&[2, 255, 0, 0, 0], 6, 1),
    (&[2, 8, 2, 0, 0], 6, 1),
    (&[2, 255, 255, 255, 255], 6, 1),
    (&[2, 7, 2, 0, 0], 10, 2),
    (&[2, 0, 2, 0, 1], 10, 2),
    (&[2, 3, 0x80, 0, 0], 10, 2),
    (&[2, 7, 255, 255, 255], 10, 2),
    (&[4, 8], 6, 1),
    (&[4, 24], 6, 1),
];

#[test]
fn order_without_power() {
    let rest: [Refusal; 6] = [
        (&[3], 7, 0),
        (&[4, 0], 7, 0),
        (&[4, 7], 7, 0),
        (&[5, 0], 7, 0),
        (&[5, 1], 7, 0),
        (&[5, 2], 7, 0),
    ];
    for part in 0..3 {
        let cut: [&[u8]; 3] = [&[1, 31], &[4, 31], &[3]];
        for refusals in [&ON_ANY[..], &ON_SPI, &rest, &[(&[4, 31], 7, 0)]] {
            check(part, &[], refusals);
            check(part, &cut, refusals);
        }
    }
    for part in 3..5 {
        let cut: [&[u8]; 3] = [&[2, 7, 0, 0x1f, 0xff], &[4, 7], &[3]];
        for refusals in [&ON_ANY[..], &ON_I2C, &rest] {
            check(part, &[], refusals);
            check(part, &cut, refusals);
        }
    }
}

/// The present answer is 2 here, so that 9 holds of every other value.
#[test]
fn order_under_power() {
    let rest: [Refusal; 2] = [(&[5, 0], 9, 0), (&[5, 1], 9, 0)];
    let spi_on: [Refusal; 2] = [(&[1, 0], 8, 0), (&[1, 31], 8, 0)];
    for part in 0..3 {
        let powered: [&[u8]; 4] = [&[1, 25], &[4, 24], &[5, 2], &[4, 31]];
        for refusals in [&ON_ANY[..], &ON_SPI, &spi_on, &rest] {
            check(part, &powered[..1], refusals);
            check(part, &powered, refusals);
        }
    }
    let i2c_on: [Refusal; 2] = [(&[2, 0, 0, 0, 0], 8, 0), (&[2, 7, 0, 0x1f, 0xff], 8, 0)];
    for part in 3..5 {
        let powered: [&[u8]; 4] = [&[2, 3, 0, 0, 0], &[4, 1], &[5, 2], &[4, 7]];
        for refusals in [&ON_ANY[..], &ON_I2C, &i2c_on, &rest] {
            check(part, &powered[..1], refusals);
            check(part, &powered, refusals);
        }
    }
}

/// The size is 2000h on part 3 and 20000h on part 4.
#[test]
fn start_addresses_by_part() {
    let on_both: [Refusal; 2] = [(&[2, 7, 0, 0x1f, 0xff], 8, 0), (&[2, 7, 2, 0, 0], 10, 2)];
    let on_3: [Refusal; 3] = [
        (&[2, 7, 0, 0x20, 0], 10, 2),
        (&[2, 0, 0, 0x20, 1], 10, 2),
        (&[2, 7, 1, 0xff, 0xff], 10, 2),
    ];
    let on_4 = on_3.map(|(event, ..)| (event, 8, 0));
    for (part, others) in [(3, on_3), (4, on_4)] {
        for refusal in on_both.into_iter().chain(others) {
            check(part, &[&[2, 3, 0, 0, 0]], &[refusal]);
            let (event, number, _) = refusal;
            // Without power 10 stays, and the others are in range.
            let model = Model::make(part, 0, 0).1;
            let without = if number == 10 { 10 } else { 0 };
            let memory = vec![7; model.part().size];
            assert_eq!(refused(&model, event, &memory), without, "{event:?}");
        }
    }
}

/// The last values in range are taken; bytes behind an event are not looked at.
#[test]
fn values_at_the_limits() {
    for part in 0..3 {
        let mut bus = Bus::make(part, 0, 0);
        for event in [[1, 31, 99], [4, 31, 99], [5, 2, 99]] {
            assert_eq!(bus.event(&event), 2);
        }
    }
    for (part, last) in [(3, [0, 0x1f, 0xff]), (4, [1, 0xff, 0xff])] {
        let mut bus = Bus::make(part, 0, 0);
        let on = [&[2, 7], &last[..], &[99]].concat();
        for event in [&on[..], &[4, 7, 99], &[5, 2, 99]] {
            assert_eq!(bus.event(event), 2);
        }
    }
}

/// Nothing in front is 5; in a run it is the end.
#[test]
fn an_empty_event() {
    for part in &PARTS {
        let (_, mut model) = Model::make(part.number, 0, 0);
        let mut memory = vec![7; part.size];
        assert_eq!(refused(&model, &[], &memory), 5);
        let end = Ran {
            number: 0,
            count: 0,
            offset: 0,
            flag: 0,
        };
        assert_eq!(model.run(&[], 9, &mut memory, &mut Vec::new()), end);
    }
}

/// What a run stored before a bad field stays stored, and the selection under way stays open.
#[test]
fn earlier_events_stand() {
    let stored = [spelled(true, &[6]), spelled(true, &[2, 0, 5, 0x77])].concat();
    let before = [&[1, 25], &stored[..], &[4, 24, 4, 26]].concat();
    let accepted: Vec<&[u8]> = before.chunks(2).collect();
    let bad: [Refusal; 3] = [(&[4, 32], 6, 1), (&[1, 32], 6, 1), (&[5, 3], 11, 1)];
    check(0, &accepted, &bad);
    let mut bus = Bus::make(0, 0, 0);
    for event in accepted {
        bus.event(event);
    }
    assert_eq!(bus.memory[5], 0x77);
}

/// 11 also where the part drives, and 9 there for the values in range.
#[test]
fn expected_values_while_a_bit_is_shown() {
    let mut bus = Bus::spi(0, 0);
    bus.select();
    bus.bytes(&[5]);
    for (value, number) in [(0, 0), (1, 9), (2, 9), (3, 11), (255, 11)] {
        assert_eq!(refused(&bus.model, &[5, value], &bus.memory), number);
    }
}

#[test]
fn an_expected_answer_returns_the_present_one() {
    let mut bus = Bus::spi(0, 0);
    bus.select();
    bus.bytes(&[5]);
    let before = bus.model.clone();
    assert_eq!(bus.event(&[5, 0, 77]), 0);
    assert_eq!(bus.model, before);
    assert_eq!(refused(&bus.model, &[5, 1], &bus.memory), 9);
}
