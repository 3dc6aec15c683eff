//! Sildrokk for Rust: a bench model of five FeRAM parts that plays the chip at its pins.
//!
//! The chip itself is `libsildrokk.a`, five C functions of which every one is proved to do what the
//! bus rules say (`docs/RULES.md`, `docs/PROMISES.md`). This crate lends them what Rust's borrows make
//! safe to lend, and names what they give back.
//!
//! One enable and two writes on MR45V032A. The write enable latch falls as the first ends, so the
//! second is dropped, as the chip drops it:
//!
//! ```
//! use sildrokk::trace::{spi, Event};
//! use sildrokk::{Model, Part, Refusal};
//!
//! fn main() -> Result<(), Refusal> {
//!     let part = Part::Mr45v032a;
//!     let mut memory = vec![0xee; part.size()];
//!     let mut chip = Model::new(part, 0, 0)?;
//!
//!     let mut power_on = Vec::new();
//!     Event::SpiPowerOn { sample: spi::CS | spi::WP | spi::HOLD }.write(&mut power_on);
//!     chip.event(&power_on, &mut memory)?;
//!
//!     chip.select(true, &[0x06], &mut [0], &mut memory)?;
//!     chip.select(true, &[0x02, 0x00, 0x00, 0x11], &mut [0; 4], &mut memory)?;
//!     chip.select(true, &[0x02, 0x00, 0x01, 0x22], &mut [0; 4], &mut memory)?;
//!     assert_eq!(memory[..2], [0x11, 0xee]);
//!
//!     let mut output = [0; 5];
//!     let driven = chip.select(true, &[0x03, 0, 0, 0, 0], &mut output, &mut memory)?;
//!     assert_eq!((driven.first, driven.count), (3, 2));
//!     assert_eq!(output[3..], [0x11, 0xee]);
//!     Ok(())
//! }
//! ```
//!
//! A trace is played as a whole, or in pieces of any length: the events before a refused one stand, and
//! where a piece ends within an event the run says so and goes on from the offset.
//!
//! ```
//! use sildrokk::{Model, Part, Refusal};
//!
//! let part = Part::Mr45v032a;
//! let mut memory = vec![0; part.size()];
//! let mut chip = Model::new(part, 0, 0).unwrap();
//! let trace = [0x01, 0x19, 0x04, 0x18, 0x03];
//!
//! let first = chip.run(&trace[..3], u64::MAX, &mut memory);
//! assert_eq!((first.refusal, first.count, first.offset), (Some(Refusal::Incomplete), 1, 2));
//! let rest = chip.run(&trace[2..], u64::MAX, &mut memory);
//! assert_eq!((rest.refusal, rest.count, rest.offset), (None, 2, 3));
//! assert!(!chip.powered());
//! ```
//!
//! The archive to link is found by the build script, in `crates/sildrokk/out` of the repository or in
//! the folder that the environment names as `SILDROKK_LIB`; it says which command writes it. The binary
//! is for x86-64 and Linux.

#![deny(unsafe_code)]
#![warn(missing_debug_implementations)]

#[forbid(unsafe_code)]
mod answer;
#[allow(missing_debug_implementations)]
pub mod calls;
#[forbid(unsafe_code)]
mod model;
#[forbid(unsafe_code)]
mod part;
#[forbid(unsafe_code)]
mod refusal;
#[forbid(unsafe_code)]
pub mod trace;

pub use answer::Answer;
pub use calls::STATE;
pub use model::{Answered, Driven, Model, Ran};
pub use part::{Bus, NoSuchPart, Part};
pub use refusal::Refusal;
