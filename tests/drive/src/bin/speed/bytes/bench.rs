//! How a selection is timed: on the proved build by bytes and by pins, on the twin by bytes, and
//! beside them a copy of as many bytes. Each call begins with a copy of the same image, on the twin of
//! the same struct, and takes the image in and leaves another; so the time of the same call without a
//! byte, taken in the same turn, is subtracted, and shown by itself.

use super::Selection;
use crate::{median, timed};
use drive::{made, run_on, select_on, Selected};
use sildrokk::calls::STATE;
use std::hint::black_box;
use twin::pins::spelled;
use twin::text::first_memory;
use twin::Model;

/// A round has so many turns of all measures. The machine's rate moves within a second, so what is
/// compared is timed within milliseconds, and the medians are those of the turns.
const TURNS: usize = 20;

/// Bytes that begin at a given place of a page. A copy takes many times as long where what it
/// writes is a few bytes ahead of what it reads, each by its place in its page; left to chance, that
/// would tell more of the addresses than of the copying.
struct Placed {
    room: Vec<u8>,
    at: std::ops::Range<usize>,
}

impl Placed {
    fn new(bytes: &[u8], place: usize) -> Placed {
        const PAGE: usize = 4_096;
        let mut room = vec![0; bytes.len() + 2 * PAGE];
        let begin = room.as_ptr().align_offset(PAGE) + place;
        let at = begin..begin + bytes.len();
        room[at.clone()].copy_from_slice(bytes);
        Placed { room, at }
    }

    fn bytes(&mut self) -> &mut [u8] {
        black_box(&mut self.room[self.at.clone()])
    }
}

/// A selection with the buffers that its calls are lent, a quarter of a page apart, and the states that
/// they begin with.
pub(super) struct Bench<'a> {
    pub(super) selection: &'a Selection,
    state: Vec<u8>,
    model: Model,
    memory: Placed,
    input: Placed,
    output: Placed,
    /// The selection as samples, and one without a byte.
    pins: Vec<u8>,
    no_pins: Vec<u8>,
    /// Those of each turn.
    times: Vec<[f64; MEASURES]>,
}

/// How many things are measured.
const MEASURES: usize = 7;

impl<'a> Bench<'a> {
    /// All that is measured; each gives the seconds of one call.
    const ALL: [fn(&mut Bench<'a>) -> f64; MEASURES] = [
        Bench::by_bytes,
        Bench::no_bytes,
        Bench::by_pins,
        Bench::no_bytes_by_pins,
        Bench::by_twin,
        Bench::no_bytes_by_twin,
        Bench::copied,
    ];

    pub(super) fn new(selection: &'a Selection) -> Bench<'a> {
        let mut memory = first_memory(selection.size());
        let mut state = made(selection.making);
        run_on(&mut state, u64::MAX, &selection.before, &mut memory, None);
        let (_, mut model) = Model::make(selection.making.part, 0, 0);
        model.run_each(&selection.before, u64::MAX, &mut memory, |_| ());
        Bench {
            selection,
            state,
            model,
            memory: Placed::new(&memory, 0),
            input: Placed::new(&selection.input, 1_024),
            output: Placed::new(&vec![0; selection.input.len()], 2_048),
            pins: spelled(true, &selection.input),
            no_pins: spelled(true, &[]),
            times: Vec::new(),
        }
    }

    pub(super) fn round(&mut self) {
        for turn in 0..TURNS {
            let seconds = self.turn(turn);
            self.times.push(seconds);
        }
    }

    /// Each measure once; one begins that is another each time.
    fn turn(&mut self, turn: usize) -> [f64; MEASURES] {
        let mut seconds = [0.0; MEASURES];
        for at in 0..MEASURES {
            let which = (turn + at) % MEASURES;
            seconds[which] = Bench::ALL[which](self);
        }
        seconds
    }

    /// Prints the medians; the ratios of the bytes alone to pins, twin and copy. These are taken turn by
    /// turn, so that a load that comes and goes falls on all.
    pub(super) fn shown(&self) -> [f64; 3] {
        let (length, size) = (self.selection.input.len(), self.selection.size());
        let nanos = |at: usize| median(&self.times, |it| alone(it)[at]) * 1e9 / length as f64;
        let [bytes, pins, twin, copy] = [0, 1, 2, 3].map(nanos);
        let ratio = |at: usize| median(&self.times, |it| alone(it)[0] / alone(it)[at]);
        let ratios = [1, 2, 3].map(ratio);
        let [no_bytes, by_twin] = [1, 5].map(|at: usize| median(&self.times, |it| it[at]) * 1e9);
        print!("{:<9} {size:>9} {length:>6}    ", self.selection.name);
        print!("{bytes:>8.3} {pins:>8.2} {twin:>8.3} {copy:>6.3}  ");
        let of_twin = match self.selection.length.of_twin {
            true => format!("{:.2}", ratios[1]),
            false => String::from("-"),
        };
        print!("{:>6.4} {of_twin:>6} {:>6.2}", ratios[0], ratios[2]);
        println!(" {no_bytes:>7.1} {by_twin:>6.1}");
        ratios
    }

    /// Both sides give the same, so that the same work is timed.
    pub(super) fn agree(&mut self) {
        let before = self.memory.bytes().to_vec();
        let theirs = self.twin_selected(true);
        let left = (self.output.bytes().to_vec(), self.memory.bytes().to_vec());
        self.output.bytes().fill(0);
        self.memory.bytes().copy_from_slice(&before);
        let ours = self.selected(true);
        assert_eq!(ours, theirs, "the two sides differ");
        let same = left.0 == self.output.bytes() && left.1 == self.memory.bytes();
        assert!(same, "the two sides differ in what they leave");
    }

    /// The selection, or one without a byte.
    fn selected(&mut self, whole: bool) -> Selected {
        let mut state = [0; STATE];
        state.copy_from_slice(black_box(&self.state));
        let (input, output) = (self.input.bytes(), self.output.bytes());
        let length = if whole { input.len() } else { 0 };
        let (input, output) = (&input[..length], &mut output[..length]);
        let selected = select_on(&mut state, 1, input, output, self.memory.bytes());
        black_box((state, selected)).1
    }

    /// The same on the twin.
    fn twin_selected(&mut self, whole: bool) -> Selected {
        let mut model = black_box(&self.model).clone();
        let (input, output) = (self.input.bytes(), self.output.bytes());
        let length = if whole { input.len() } else { 0 };
        let (input, output) = (&input[..length], &mut output[..length]);
        let selected = model.select(true, input, output, self.memory.bytes());
        black_box((model, selected)).1
    }

    fn by_bytes(&mut self) -> f64 {
        let calls = self.selection.length.calls;
        repeated(calls, || self.selected(true).number)
    }

    fn no_bytes(&mut self) -> f64 {
        let calls = self.selection.length.calls;
        repeated(calls, || self.selected(false).number)
    }

    fn by_pins(&mut self) -> f64 {
        let calls = self.selection.length.calls_by_pins;
        Bench::run(&self.state, &self.pins, self.memory.bytes(), calls)
    }

    fn no_bytes_by_pins(&mut self) -> f64 {
        let calls = self.selection.length.calls;
        Bench::run(&self.state, &self.no_pins, self.memory.bytes(), calls)
    }

    fn run(state: &[u8], trace: &[u8], memory: &mut [u8], calls: usize) -> f64 {
        repeated(calls, || {
            let mut next = [0; STATE];
            next.copy_from_slice(black_box(state));
            let ran = run_on(&mut next, u64::MAX, black_box(trace), memory, None);
            black_box((next, ran)).1.number
        })
    }

    fn by_twin(&mut self) -> f64 {
        let calls = self.selection.length.calls;
        repeated(calls, || self.twin_selected(true).number)
    }

    fn no_bytes_by_twin(&mut self) -> f64 {
        let calls = self.selection.length.calls;
        repeated(calls, || self.twin_selected(false).number)
    }

    fn copied(&mut self) -> f64 {
        repeated(self.selection.length.calls, || {
            self.output.bytes().copy_from_slice(self.input.bytes());
            0
        })
    }
}

/// Of the seconds of a turn, those of the bytes alone: by bytes, by pins, by the twin, and of a copy.
fn alone(seconds: &[f64; MEASURES]) -> [f64; 4] {
    let [bytes, no_bytes, pins, no_pins, twin, no_twin, copy] = *seconds;
    [bytes - no_bytes, pins - no_pins, twin - no_twin, copy]
}

/// The seconds of one of so many calls, none of which is refused.
fn repeated(calls: usize, mut call: impl FnMut() -> u8) -> f64 {
    let other = |all: u8, _| all | black_box(call());
    let (refused, seconds) = timed(|| (0..calls).fold(0, other));
    assert_eq!(refused, 0, "a call is refused");
    seconds / calls as f64
}
