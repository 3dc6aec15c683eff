//! A selection as bytes. It means the pin samples that `pins::spelled` writes down, but it is told
//! here by whole bytes, with nothing of the pin path: code, address, then data in stretches.

use crate::part::{spi_pin, Op, Part};
use crate::spi::Spi;

/// A byte none of whose bits is driven.
const UNDRIVEN: u8 = 0xff;

/// What a selection gives back besides the model, the memory and the bytes.
#[derive(Clone, Copy, Debug, PartialEq, Eq)]
pub struct Selected {
    /// The number of the refusal, or 0.
    pub number: u8,
    /// The index of the first driven byte, or the length if none is driven.
    pub first: u64,
    /// How many bytes are driven.
    pub count: u64,
}

impl Selected {
    /// Both figures are 0 on every refusal.
    pub fn refused(number: u8) -> Selected {
        Selected {
            number,
            first: 0,
            count: 0,
        }
    }
}

/// The sample in which CS# rises: SI is as the last bit left it.
fn last_sample(wp: bool, input: &[u8]) -> u8 {
    let si = input.last().is_some_and(|byte| byte & 1 != 0);
    let level = |high: bool, wire: u8| if high { wire } else { 0 };
    spi_pin::CS | spi_pin::HOLD | level(wp, spi_pin::WP) | level(si, spi_pin::SI)
}

impl Spi {
    /// One selection of a part that is not selected, with an output as long as the input.
    pub(crate) fn select(
        &mut self,
        wp: bool,
        input: &[u8],
        output: &mut [u8],
        memory: &mut [u8],
    ) -> Selected {
        // The selection after SLEEP is deaf whatever it holds, and wakes the part.
        let deaf = std::mem::take(&mut self.asleep);
        let code = input.first().filter(|_| !deaf);
        let op = code.and_then(|&code| self.part.op(code));
        let selected = self.show(op, input, output, memory);
        self.take(op, wp, input, memory);
        self.old = last_sample(wp, input);
        self.rest();
        selected
    }

    /// What comes back. Output starts with a whole byte for each command that has one.
    fn show(&self, op: Option<Op>, input: &[u8], output: &mut [u8], memory: &[u8]) -> Selected {
        let head = match op {
            Some(Op::Rdsr | Op::Rdid) => 1,
            Some(Op::Read) => 1 + address_bytes(self.part),
            Some(Op::Fstrd) => 5,
            _ => output.len(),
        };
        // If the output ends before or with the head, nothing is driven and this is its length.
        let head = head.min(output.len());
        let (undriven, shown) = output.split_at_mut(head);
        undriven.fill(UNDRIVEN);
        let count = match op {
            Some(Op::Rdid) => show_identity(&self.part.id, shown),
            Some(Op::Rdsr) => {
                shown.fill(self.status());
                shown.len()
            }
            _ => {
                if let (Some(address), false) = (address(self.part, input), shown.is_empty()) {
                    copy_round(memory, address, shown);
                }
                shown.len()
            }
        };
        Selected {
            number: 0,
            first: head as u64,
            count: count as u64,
        }
    }

    /// What the selection does to status, sleep and memory.
    fn take(&mut self, op: Option<Op>, wp: bool, input: &[u8], memory: &mut [u8]) {
        match op {
            Some(Op::Wren) => self.wel = true,
            Some(Op::Wrdi) => self.wel = false,
            Some(Op::Sleep) => self.asleep = true,
            Some(Op::Wrsr) => {
                if let Some(&byte) = input.get(1) {
                    self.take_status(byte, wp);
                }
            }
            Some(Op::Write) => {
                let data = input.get(1 + address_bytes(self.part)..);
                if let Some(data) = data.filter(|data| !data.is_empty()) {
                    self.take_data(input, data, memory);
                }
            }
            _ => {}
        }
    }

    /// The first data byte of a WRSR: with WEL it becomes the bits, unless SRWD is 1 and WP# 0. WEL
    /// ends either way.
    fn take_status(&mut self, byte: u8, wp: bool) {
        let enabled = std::mem::take(&mut self.wel);
        let locked = self.bits >= 4 && !wp;
        if enabled && !locked {
            self.bits = (byte & 0x80) >> 5 | (byte & 0x0c) >> 2;
        }
    }

    /// The data of a WRITE: with WEL it is stored where nothing protects it. WEL ends either way. CS#
    /// rises behind the last byte, so that none waits on a part that stores late.
    fn take_data(&mut self, input: &[u8], data: &[u8], memory: &mut [u8]) {
        let enabled = std::mem::take(&mut self.wel);
        if let (Some(address), true) = (address(self.part, input), enabled) {
            let protected_from = self.part.protected_from(self.bits);
            store_round(memory, protected_from, address, data);
        }
    }
}

fn address_bytes(part: &Part) -> usize {
    part.address_bits as usize / 8
}

/// The address behind the code, if it is there in whole.
fn address(part: &Part, input: &[u8]) -> Option<usize> {
    let sent = input.get(1..1 + address_bytes(part))?;
    let sent = sent
        .iter()
        .fold(0, |sum, &byte| 256 * sum + u64::from(byte));
    Some(part.wrap(sent))
}

/// RDID drives three bytes at most; how many there were.
fn show_identity(id: &[u8; 3], shown: &mut [u8]) -> usize {
    let count = shown.len().min(id.len());
    let (driven, undriven) = shown.split_at_mut(count);
    driven.copy_from_slice(&id[..count]);
    undriven.fill(UNDRIVEN);
    count
}

/// Fills from the address up, and from 0 on behind the top.
fn copy_round(memory: &[u8], address: usize, mut shown: &mut [u8]) {
    let mut from = &memory[address..];
    while !shown.is_empty() {
        let count = from.len().min(shown.len());
        let (stretch, rest) = shown.split_at_mut(count);
        stretch.copy_from_slice(&from[..count]);
        (from, shown) = (memory, rest);
    }
}

/// Stores from the address up, and from 0 on behind the top. What is protected reaches to the top;
/// data for it is passed over.
fn store_round(memory: &mut [u8], protected_from: usize, address: usize, mut data: &[u8]) {
    let mut at = address;
    while !data.is_empty() {
        let (stretch, rest) = data.split_at(data.len().min(memory.len() - at));
        let free = protected_from.saturating_sub(at).min(stretch.len());
        memory[at..at + free].copy_from_slice(&stretch[..free]);
        (at, data) = (0, rest);
    }
}
