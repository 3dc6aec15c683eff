//! Bytes at an odd address, with none to spare behind them.

use std::ops::{Deref, DerefMut};

pub struct Odd {
    room: Vec<u8>,
    /// 0 or 1, so that the address is odd.
    begin: usize,
}

impl From<&[u8]> for Odd {
    fn from(bytes: &[u8]) -> Odd {
        let mut room = Vec::with_capacity(bytes.len() + 1);
        let begin = 1 - room.as_ptr() as usize % 2;
        room.resize(begin, 0);
        room.extend_from_slice(bytes);
        let odd = Odd { room, begin };
        assert_eq!(odd.as_ptr() as usize % 2, 1, "an odd address");
        odd
    }
}

impl Deref for Odd {
    type Target = [u8];

    fn deref(&self) -> &[u8] {
        &self.room[self.begin..]
    }
}

impl DerefMut for Odd {
    fn deref_mut(&mut self) -> &mut [u8] {
        &mut self.room[self.begin..]
    }
}
