//! What the tests of the command share. Every one of them runs the real binary; what it is to print is
//! worked out here, from docs/COMMAND.md, docs/RULES.md and the library, and never by the command.

#![allow(dead_code)] // each file of tests uses its own share of this

pub mod bus;
pub mod chip;
pub mod command;
pub mod judged;
pub mod played;
pub mod random;
pub mod report;
pub mod scratch;
pub mod sigrok;
pub mod turn;
pub mod vcd;
pub mod walk;
pub mod wanted;

/// The longer form of the longest tests: `SILDROKK_LONG=1`.
pub fn long() -> bool {
    std::env::var_os("SILDROKK_LONG").is_some_and(|value| value == "1")
}

/// So many in the gate, and `times` as many in the longer form.
pub fn many(count: usize, times: usize) -> usize {
    count * if long() { times } else { 1 }
}
