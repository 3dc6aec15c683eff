//! Block protection: a WRITE over the whole memory changes what the block bits leave open, told by
//! bytes, by pins and by the ledger.

mod common;

use common::Bus;
use twin::pins::spelled;
use twin::text::first_memory;
use twin::{Ledger, PARTS};

/// BP1 BP0, and how many quarters of the memory are open to a WRITE: all of them with no block
/// protected, three with the upper quarter, two with the upper half, none with all.
const OPEN_QUARTERS: [(u8, usize); 4] = [(0b00, 4), (0b01, 3), (0b10, 2), (0b11, 0)];

/// Another byte than the first memory has, for each address.
fn other_bytes(size: usize) -> Vec<u8> {
    first_memory(size).iter().map(|byte| !byte).collect()
}

/// The selections of a sweep: the status is written, and then the whole memory from address 0 on.
fn sweep(part: u32, status: u8) -> [Vec<u8>; 4] {
    let table = &PARTS[part as usize];
    let mut write = table.addressed(0x02, 0);
    write.extend(other_bytes(table.size));
    [vec![0x06], vec![0x01, status], vec![0x06], write]
}

/// As many addresses changed as are open, which are the lowest, and each has the byte that was sent.
fn assert_open_changed(memory: &[u8], open: usize, about: &str) {
    let (first, sent) = (first_memory(memory.len()), other_bytes(memory.len()));
    let changed = (0..memory.len()).filter(|&at| memory[at] != first[at]);
    assert_eq!(changed.clone().count(), open, "{about}: addresses changed");
    assert!(changed.eq(0..open), "{about}: not the lowest");
    assert!(memory[..open] == sent[..open], "{about}: other bytes");
}

/// Each SPI part with each of the block bits, and SRWD as told. What carries out the selections gives
/// the memory after them.
fn each_sweep(srwd: u8, carry_out: impl Fn(u32, &[Vec<u8>]) -> Vec<u8>) {
    for part in 0..3 {
        for (bp, quarters) in OPEN_QUARTERS {
            let memory = carry_out(part, &sweep(part, srwd << 7 | bp << 2));
            let about = format!("part {part}, SRWD {srwd}, BP {bp:02b}");
            assert_open_changed(&memory, memory.len() / 4 * quarters, &about);
        }
    }
}

fn bytes(part: u32, selections: &[Vec<u8>]) -> Vec<u8> {
    let mut bus = Bus::spi(part, 0);
    for input in selections {
        let mut output = vec![0; input.len()];
        let selected = bus.model.select(true, input, &mut output, &mut bus.memory);
        assert_eq!(selected.number, 0);
    }
    bus.memory
}

fn pins(part: u32, selections: &[Vec<u8>]) -> Vec<u8> {
    let mut bus = Bus::spi(part, 0);
    for input in selections {
        let trace = spelled(true, input);
        let ran = bus
            .model
            .run_each(&trace, u64::MAX, &mut bus.memory, |_| ());
        assert_eq!(ran.number, 0);
    }
    bus.memory
}

/// The answers of an SPI part are of no account to the ledger.
fn ledger(part: u32, selections: &[Vec<u8>]) -> Vec<u8> {
    let memory = first_memory(PARTS[part as usize].size);
    let mut ledger = Ledger::begin(part, 0, 0, &memory);
    ledger.feed(&[1, 25], 2);
    for input in selections {
        for event in spelled(true, input).chunks(2) {
            ledger.feed(event, 2);
        }
    }
    ledger.memory().to_vec()
}

#[test]
fn by_bytes() {
    each_sweep(0, bytes);
}

#[test]
fn by_pins() {
    each_sweep(0, pins);
}

#[test]
fn by_the_ledger() {
    each_sweep(0, ledger);
}

/// It is about the status register and protects no memory.
#[test]
fn srwd_is_no_block_bit() {
    each_sweep(1, bytes);
}
