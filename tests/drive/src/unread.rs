//! A making into a buffer that nothing was written to before; that what it wrote may be read is for the
//! compiler to be told, which is unsafe.

#![allow(unsafe_code)]

use crate::Making;
use sildrokk::calls::STATE;

/// A making into a buffer of this length that nothing was written to before, so that valgrind tells if
/// it reads it, or if bytes of the state are used that it has not written. The number if it is refused.
pub fn make_unread(making: Making, length: usize) -> Result<Box<[u8]>, u8> {
    let mut state = Box::new_uninit_slice(length);
    match (making.make((&mut *state).into()), length) {
        // SAFETY: a making that is not refused writes the whole state.
        (0, STATE) => Ok(unsafe { state.assume_init() }),
        (number, _) => Err(number),
    }
}
