//! A selection as bytes is its pin samples: model, memory, bytes and figures, over the three SPI
//! parts.

mod common;

use common::pins::Both;
use common::Bus;
use twin::text::{first_memory, ByteLine};
use twin::{Model, Selected, PARTS};

/// A part under power whose status bits were written, its enable set if that is wanted.
fn written(part: u32, bits: u8, enabled: bool) -> Bus {
    let mut bus = Bus::spi(part, 0);
    bus.command(&[6]);
    bus.command(&[1, (bits & 4) << 5 | (bits & 3) << 2]);
    if enabled {
        bus.command(&[6]);
    }
    assert_eq!(bus.model.bits(), bits);
    bus
}

fn asleep(part: u32, bits: u8) -> Bus {
    let mut bus = written(part, bits, true);
    bus.command(&[0xb9]);
    bus
}

/// Just powered, with the enable and without it, with all status bits, and after SLEEP.
fn few_states(part: u32) -> Vec<Bus> {
    let mut states = vec![
        Bus::spi(part, 0),
        written(part, 0, true),
        written(part, 7, true),
    ];
    if part == 1 {
        states.push(asleep(part, 0));
    }
    states
}

/// All status bits, with the enable and without it, and after SLEEP.
fn all_states(part: u32) -> Vec<Bus> {
    let each = |enabled| (0..8).map(move |bits| written(part, bits, enabled));
    let slept = (0..8).filter(|_| part == 1).map(|bits| asleep(part, bits));
    each(false).chain(each(true)).chain(slept).collect()
}

fn both(bus: &Bus) -> Both {
    Both::new(&bus.model, &bus.memory)
}

/// Codes that some part has, and two that none has.
const CODES: [u8; 11] = [
    0x06, 0x04, 0x05, 0x01, 0x03, 0x02, 0x0b, 0x9f, 0xb9, 0x00, 0xff,
];

#[test]
fn no_bytes_at_all() {
    let none = Selected {
        number: 0,
        first: 0,
        count: 0,
    };
    for bus in (0..3).flat_map(all_states) {
        let mut both = both(&bus);
        assert_eq!(both.agree(false, &[]), (vec![], none));
        assert_eq!(both.agree(true, &[]), (vec![], none));
    }
}

/// The first byte, the first two, and so on up to all of them, with either WP#.
fn every_length(both: &mut Both, input: &[u8]) {
    for length in 1..=input.len() {
        both.agree(true, &input[..length]);
        both.agree(false, &input[..length]);
    }
}

/// Every code with 0 to 8 bytes behind it.
fn every_code(part: u32) {
    for bus in few_states(part) {
        let mut both = both(&bus);
        for code in 0..=255 {
            let input = [code, 0x00, 0x2f, 0xfe, 0x8d, 0x01, 0xa6, 0x00, 0x53];
            every_length(&mut both, &input);
        }
    }
}

#[test]
fn every_code_of_part_0() {
    every_code(0);
}

#[test]
fn every_code_of_part_1() {
    every_code(1);
}

#[test]
fn every_code_of_part_2() {
    every_code(2);
}

/// WRSR with each of the status bits asked for, and the others, in all states.
#[test]
fn commands_in_all_states() {
    for bus in (0..3).flat_map(all_states) {
        let mut both = both(&bus);
        for (code, at) in CODES.into_iter().zip(0..) {
            for data in [0x00, 0x04, 0x88, 0x73, 0xff] {
                every_length(&mut both, &[code, data, 0x0b, 0xff - at, 0x21, 0x84, 0x5e]);
            }
        }
    }
}

/// A code and an address as the part takes it, then some data.
fn addressed(part: u32, code: u8, address: usize, data: usize) -> Vec<u8> {
    let mut input = PARTS[part as usize].addressed(code, address);
    input.extend((0..data).map(|at| 0x5d ^ (at * 41) as u8));
    input
}

/// Addresses a little before each border, at it and behind it.
fn near_borders(part: u32) -> impl Iterator<Item = usize> {
    let table = &PARTS[part as usize];
    // The size is added so that none lies below 0; it counts modulo the size.
    let near = move |border: usize| {
        [1, 0, -1, -2, -300].map(|more| (border + table.size).wrapping_add_signed(more))
    };
    (0..4).flat_map(move |bits| near(table.protected_from(bits)))
}

/// Reads and writes at an address, of no data, of little, and of so much that it reaches a border.
fn at_address(part: u32, address: usize) -> impl Iterator<Item = Vec<u8>> {
    let of_code = move |code| [0, 1, 2, 3, 301].map(|data| addressed(part, code, address, data));
    [0x02, 0x03, 0x0b].into_iter().flat_map(of_code)
}

/// Reads and writes near each border, with all block bits.
#[test]
fn around_the_borders() {
    for part in 0..3 {
        let near = near_borders(part).flat_map(|address| at_address(part, address));
        let inputs: Vec<Vec<u8>> = near.collect();
        for bits in 0..4 {
            let mut both = both(&written(part, bits, true));
            for input in &inputs {
                both.agree(true, input);
            }
        }
    }
}

/// More than twice round, so that what came first is overwritten and shown again.
#[test]
fn longer_than_the_memory() {
    let size = PARTS[0].size;
    for bits in 0..4 {
        let mut both = both(&written(0, bits, true));
        for code in [0x02, 0x03, 0x05, 0x06, 0x0b] {
            let long = addressed(0, code, size - 2, 2 * size);
            assert_eq!(long.len(), 2 * size + 3);
            both.agree(true, &long);
            both.agree(true, &addressed(0, code, 0x7ff, size + 1));
        }
    }
    let mut both = both(&written(1, 2, true));
    for code in [0x02, 0x03, 0x0b] {
        both.agree(false, &addressed(1, code, 0x1ffff, PARTS[1].size + 9));
    }
}

/// The vectors' own selections, from the model and the memory that their traces leave.
#[test]
fn every_vector_by_pins() {
    let path = concat!(env!("CARGO_MANIFEST_DIR"), "/../vectors/bytes.txt");
    let text = std::fs::read_to_string(path).expect(path);
    let lines = text.lines().filter_map(ByteLine::parse);
    let mut count = 0;
    for line in lines.filter(|line| line.number == 0) {
        let (_, mut model) = Model::make(line.part, line.pins, line.bits);
        let mut memory = first_memory(model.part().size);
        let ran = model.run(&line.trace, u64::MAX, &mut memory, &mut Vec::new());
        assert_eq!(ran.number, 0);
        let (output, selected) = Both::new(&model, &memory).agree(line.wp != 0, &line.input);
        assert_eq!((selected.first, selected.count), (line.first, line.count));
        assert_eq!(output, line.output);
        count += 1;
    }
    assert_eq!(count, 216);
}
