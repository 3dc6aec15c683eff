//! An independent model of the five parts, kept as a second opinion: its rules are taken from the
//! papers of scope and of change requests, and it shares no line with the build that it is compared
//! with. The layout of its images and, so that it can hold each state that has one, the phases of its
//! buses are those of docs/IMAGE.md, as in the build. tests/by_rises tells the buses in the words of
//! the paper of scope, without phases, and this model is held against it.

#![forbid(unsafe_code)]

pub mod bytes;
mod event;
pub mod gen;
pub mod i2c;
pub mod image;
pub mod ledger;
pub mod model;
pub mod part;
pub mod pins;
pub mod spi;
pub mod text;
pub mod trace;

pub use bytes::Selected;
pub use ledger::Ledger;
pub use model::{Model, Ran};
pub use part::{Part, PARTS};

/// The answer low.
pub const LOW: u8 = 0;
/// The answer high. I2C never gives it.
pub const HIGH: u8 = 1;
/// The answer when nothing is driven.
pub const NOTHING: u8 = 2;
