//! The five C functions of include/sildrokk.h over slices of any length, and all that is unsafe in
//! this crate. [`Model`](crate::Model) is made of them; a host that lends other lengths, or buffers
//! that were never written, calls them here.
//!
//! Why it is sound: every pointer comes from a slice and goes in with the length of that slice; what
//! is lent to be written comes from a mutable borrow, so that no two buffers of a call overlap unless
//! both are only read; a buffer that was never written is lent only where the function never reads it
//! (a [`Room`]); and no function keeps a pointer after it returns, or anything else between calls, so
//! that calls may run at once in any threads. That the functions read and write nothing else is proved
//! with the rest of them.

#![allow(unsafe_code)]

use std::marker::PhantomData;
use std::mem::MaybeUninit;

/// How long a state is, and how long a result.
pub const STATE: usize = 32;
pub const RESULT: usize = 32;

/// Each function once: as it is linked, and as the type of one that is loaded.
macro_rules! functions {
    ($($(#[$about:meta])* $name:ident $alias:ident ($($word:ident: $kind:ty),+);)+) => {
        extern "C" {
            $(fn $name($($word: $kind),+) -> u8;)+
        }
        $($(#[$about])* pub type $alias = unsafe extern "C" fn($($kind),+) -> u8;)+
    };
}

functions! {
    /// `sildrokk_make`.
    sildrokk_make Make (part: u32, pins: u32, bits: u32, state: *mut u8, state_length: usize);

    /// `sildrokk_event`.
    sildrokk_event Event (state: *mut u8, state_length: usize,
        event: *const u8, event_length: usize,
        memory: *mut u8, memory_length: usize,
        result: *mut u8, result_length: usize);

    /// `sildrokk_run`.
    sildrokk_run Run (state: *mut u8, state_length: usize,
        trace: *const u8, trace_length: usize, quota: u64,
        memory: *mut u8, memory_length: usize,
        result: *mut u8, result_length: usize);

    /// `sildrokk_replay`.
    sildrokk_replay Replay (state: *mut u8, state_length: usize,
        trace: *const u8, trace_length: usize, quota: u64,
        memory: *mut u8, memory_length: usize,
        answers: *mut u8, answers_length: usize,
        result: *mut u8, result_length: usize);

    /// `sildrokk_select`.
    sildrokk_select Select (state: *mut u8, state_length: usize, wp: u32,
        input: *const u8, input_length: usize,
        output: *mut u8, output_length: usize,
        memory: *mut u8, memory_length: usize,
        result: *mut u8, result_length: usize);
}

/// A buffer that a call may write and never reads, so that it need not have been written before.
pub struct Room<'a> {
    at: *mut u8,
    length: usize,
    lent: PhantomData<&'a mut [u8]>,
}

impl<'a> From<&'a mut [u8]> for Room<'a> {
    fn from(bytes: &'a mut [u8]) -> Room<'a> {
        Room {
            at: bytes.as_mut_ptr(),
            length: bytes.len(),
            lent: PhantomData,
        }
    }
}

impl<'a> From<&'a mut [MaybeUninit<u8>]> for Room<'a> {
    fn from(bytes: &'a mut [MaybeUninit<u8>]) -> Room<'a> {
        Room {
            at: bytes.as_mut_ptr().cast(),
            length: bytes.len(),
            lent: PhantomData,
        }
    }
}

/// What each call but making lends.
pub struct Lent<'a> {
    pub state: &'a mut [u8],
    pub memory: &'a mut [u8],
    pub result: Room<'a>,
}

/// `sildrokk_make`: the number that it returns.
#[inline]
pub fn make(part: u32, pins: u32, bits: u32, state: Room) -> u8 {
    // SAFETY: as said at the head; so below.
    unsafe { sildrokk_make(part, pins, bits, state.at, state.length) }
}

/// A state just made, or the number of the refusal.
#[inline]
pub fn made(part: u32, pins: u32, bits: u32) -> Result<[u8; STATE], u8> {
    let mut state = [MaybeUninit::uninit(); STATE];
    match make(part, pins, bits, state.as_mut_slice().into()) {
        // SAFETY: a making that is not refused writes the whole state.
        0 => Ok(state.map(|byte| unsafe { byte.assume_init() })),
        number => Err(number),
    }
}

/// `sildrokk_event`: the number that it returns.
#[inline]
pub fn event(event: &[u8], lent: Lent) -> u8 {
    let Lent {
        state,
        memory,
        result,
    } = lent;
    // SAFETY: as said at the head.
    unsafe {
        sildrokk_event(
            state.as_mut_ptr(),
            state.len(),
            event.as_ptr(),
            event.len(),
            memory.as_mut_ptr(),
            memory.len(),
            result.at,
            result.length,
        )
    }
}

/// `sildrokk_run`: the number that it returns.
#[inline]
pub fn run(trace: &[u8], quota: u64, lent: Lent) -> u8 {
    let Lent {
        state,
        memory,
        result,
    } = lent;
    // SAFETY: as said at the head.
    unsafe {
        sildrokk_run(
            state.as_mut_ptr(),
            state.len(),
            trace.as_ptr(),
            trace.len(),
            quota,
            memory.as_mut_ptr(),
            memory.len(),
            result.at,
            result.length,
        )
    }
}

/// `sildrokk_replay`: the number that it returns.
#[inline]
pub fn replay(trace: &[u8], quota: u64, answers: Room, lent: Lent) -> u8 {
    let Lent {
        state,
        memory,
        result,
    } = lent;
    // SAFETY: as said at the head.
    unsafe {
        sildrokk_replay(
            state.as_mut_ptr(),
            state.len(),
            trace.as_ptr(),
            trace.len(),
            quota,
            memory.as_mut_ptr(),
            memory.len(),
            answers.at,
            answers.length,
            result.at,
            result.length,
        )
    }
}

/// `sildrokk_select`: the number that it returns.
#[inline]
pub fn select(wp: u32, input: &[u8], output: Room, lent: Lent) -> u8 {
    let Lent {
        state,
        memory,
        result,
    } = lent;
    // SAFETY: as said at the head.
    unsafe {
        sildrokk_select(
            state.as_mut_ptr(),
            state.len(),
            wp,
            input.as_ptr(),
            input.len(),
            output.at,
            output.length,
            memory.as_mut_ptr(),
            memory.len(),
            result.at,
            result.length,
        )
    }
}
