//! Selections as bytes that are refused: 3, 4, 12 and 13 in this order, and nothing changes.

mod common;

use common::Bus;
use twin::{Model, PARTS};

/// What is sent: it would write if it were taken.
const INPUT: [u8; 6] = [2, 0, 0, 0, 0x55, 0xaa];

/// The number of a selection on a clone, which must be refused without a trace.
fn refused(model: &Model, memory: &[u8], input: &[u8], length: usize) -> u8 {
    let numbers = [false, true].map(|wp| {
        let (mut after, mut cells) = (model.clone(), memory.to_vec());
        let mut output: Vec<u8> = (0..length).map(|at| at as u8 ^ 0x3c).collect();
        let before = output.clone();
        let selected = after.select(wp, input, &mut output, &mut cells);
        assert_ne!(selected.number, 0);
        assert_eq!((selected.first, selected.count), (0, 0));
        assert_eq!((&after, output), (model, before));
        assert!(cells == memory);
        selected.number
    });
    assert_eq!(numbers[0], numbers[1]);
    numbers[0]
}

/// The part without power, under power, and selected.
fn states(part: u32) -> [Model; 3] {
    let without = Model::make(part, 0, 0).1;
    let bus = if part < 3 {
        Bus::spi(part, 0)
    } else {
        Bus::i2c(part, 0, 0)
    };
    let powered = bus.model.clone();
    let mut low = bus;
    low.event(&[4, 0]);
    [without, powered, low.model]
}

#[test]
fn the_memory_comes_first() {
    for part in &PARTS {
        for model in states(part.number) {
            for size in [0, part.size - 1, part.size + 1] {
                for length in [0, 5, 6] {
                    assert_eq!(refused(&model, &vec![1; size], &INPUT, length), 3);
                }
                assert_eq!(refused(&model, &vec![1; size], &[], 0), 3);
            }
        }
    }
}

#[test]
fn i2c_parts_have_no_selections() {
    for part in &PARTS[3..] {
        for model in states(part.number) {
            for length in [0, 5, 6] {
                assert_eq!(refused(&model, &vec![1; part.size], &INPUT, length), 4);
            }
            assert_eq!(refused(&model, &vec![1; part.size], &[], 0), 4);
        }
    }
}

#[test]
fn neither_without_power_nor_while_selected() {
    for part in &PARTS[..3] {
        let [without, powered, low] = states(part.number);
        let mut after_cut = powered.clone();
        let mut memory = vec![1; part.size];
        after_cut.event(&[3], &mut memory);
        let mut on_low = without.clone();
        on_low.event(&[1, 24], &mut memory);
        for model in [without, low, after_cut, on_low] {
            for length in [0, 5, 6, 7] {
                assert_eq!(refused(&model, &memory, &INPUT, length), 12);
            }
            assert_eq!(refused(&model, &memory, &[], 0), 12);
        }
    }
}

#[test]
fn an_output_of_another_length() {
    for part in &PARTS[..3] {
        let [_, powered, _] = states(part.number);
        let memory = vec![1; part.size];
        for length in [0, 1, 5, 7, 4096] {
            assert_eq!(refused(&powered, &memory, &INPUT, length), 13);
        }
        assert_eq!(refused(&powered, &memory, &[], 1), 13);
        assert_eq!(refused(&powered, &memory, &[6], 0), 13);
    }
}
