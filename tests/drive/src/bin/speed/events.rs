//! Events one at a time, on an image that is handed on from call to call: beside the twin's call on a
//! struct, and beside the same events in one run on an image.

use crate::timed;
use drive::outcome::LEFT;
use drive::streams::Stream;
use drive::{made, run_on, Making};
use sildrokk::calls::{self, Lent, RESULT};
use std::hint::black_box;
use twin::image::encode;
use twin::trace::{after, events};
use twin::{Model, PARTS};

/// Events of each stream, from its front.
const EVENTS: u64 = 1 << 16;

/// A round has so many turns of the three ways, so that all are timed within milliseconds.
const TURNS: usize = 4;

/// The most of the run's time that an event by itself may take, on each stream and in the mean over
/// them: the place of the code in the program moves the run of one stream by a quarter.
const OF_RUN: f64 = 20.0;
const OF_RUN_IN_THE_MEAN: f64 = 15.0;

/// The most of the twin's time, on each stream.
const OF_TWIN: f64 = 5.0;

/// A line of the table.
struct Line {
    name: &'static str,
    /// Nanoseconds of an event: by itself on an image, by the twin on a struct, and in one run.
    nanos: [f64; 3],
}

/// Prints the table; what is above its limit.
pub fn table(streams: &[Stream], rounds: usize) -> Vec<String> {
    println!(
        "                    ns an event, one at a time    in one run   an event by itself over"
    );
    println!("stream         memory    on an image        twin                    twin   one run");
    let lines: Vec<Line> = streams.iter().map(|it| measure(it, rounds)).collect();
    let mean = |at: usize| lines.iter().map(|it| it.nanos[at]).sum::<f64>() / lines.len() as f64;
    let mean = Line {
        name: "in the mean",
        nanos: [0, 1, 2].map(mean),
    };
    mean.print("");
    let of_streams = lines.iter().flat_map(|it| it.above(OF_RUN));
    of_streams.chain(mean.above(OF_RUN_IN_THE_MEAN)).collect()
}

impl Line {
    fn of_twin(&self) -> f64 {
        self.nanos[0] / self.nanos[1]
    }

    fn of_run(&self) -> f64 {
        self.nanos[0] / self.nanos[2]
    }

    fn print(&self, size: &str) {
        let (name, [image, twin, run]) = (self.name, self.nanos);
        print!("{name:<11} {size:>9}  {image:>13.1} {twin:>11.1} {run:>13.1} ");
        println!("{:>11.1} {:>9.1}", self.of_twin(), self.of_run());
    }

    /// A line for each ratio that is above its limit.
    fn above(&self, of_run: f64) -> Vec<String> {
        let ratios = [
            ("the twin", self.of_twin(), OF_TWIN),
            ("a run", self.of_run(), of_run),
        ];
        let high = ratios.into_iter().filter(|(_, ratio, limit)| ratio > limit);
        let line = |(of, ratio, limit)| {
            let name = self.name;
            format!("{name}: an event by itself takes {ratio:.1} of {of}, above {limit}")
        };
        high.map(line).collect()
    }
}

/// One of the ways, over all events: what there is in the end.
type Way = fn(&[&[u8]], &[u8], u32, &mut [u8]) -> End;

/// The image in the end, and a sum over the answers where they are seen.
#[derive(PartialEq, Eq)]
struct End {
    state: Vec<u8>,
    answers: Option<u64>,
}

const WAYS: [Way; 3] = [by_image, by_struct, in_one_run];

/// The quickest of all turns of a way, each of which begins with another: the ways differ in length, so
/// that a load which comes and goes falls more often on one than on another, and it can only add.
fn measure(stream: &Stream, rounds: usize) -> Line {
    let (bytes, _) = after(&stream.trace, EVENTS);
    let trace = &stream.trace[..bytes as usize];
    let each: Vec<&[u8]> = events(trace).collect();
    let size = PARTS[stream.part as usize].size;
    let mut times: Vec<[f64; 3]> = Vec::new();
    for turn in 0..rounds * TURNS {
        let mut seconds = [0.0; WAYS.len()];
        let mut ends: [Option<(End, Vec<u8>)>; WAYS.len()] = Default::default();
        for which in (0..WAYS.len()).map(|at| (turn + at) % WAYS.len()) {
            let mut memory = vec![0; size];
            let way = || WAYS[which](black_box(&each), black_box(trace), stream.part, &mut memory);
            let (end, time) = timed(way);
            seconds[which] = time;
            ends[which] = Some((end, memory));
        }
        agree(ends);
        times.push(seconds);
    }
    let quickest = |at: usize| times.iter().map(|it| it[at]).fold(f64::INFINITY, f64::min);
    let line = Line {
        name: stream.name,
        nanos: [0, 1, 2].map(|at| quickest(at) * 1e9 / each.len() as f64),
    };
    line.print(&size.to_string());
    line
}

/// All three leave the same state and memory, and the two that see answers see the same.
fn agree(ends: [Option<(End, Vec<u8>)>; 3]) {
    let [image, twin, run] = ends.map(|end| end.expect("each way was gone"));
    assert!(image == twin, "the two sides differ");
    let same = (image.0.state, image.1) == (run.0.state, run.1);
    assert!(same, "one at a time leaves something else than one run");
}

fn by_image(each: &[&[u8]], _: &[u8], part: u32, memory: &mut [u8]) -> End {
    let mut state = made(Making::new(part, 0, 0));
    let mut result = [LEFT; RESULT];
    let (mut refused, mut sum) = (0, 0);
    for event in each {
        let lent = Lent {
            state: &mut state,
            memory,
            result: result.as_mut_slice().into(),
        };
        refused |= calls::event(event, lent);
        sum += seen(result[0], result[1]);
    }
    assert_eq!(refused, 0, "the stream has a refused event");
    End {
        state,
        answers: Some(sum),
    }
}

fn by_struct(each: &[&[u8]], _: &[u8], part: u32, memory: &mut [u8]) -> End {
    let (_, mut model) = Model::make(part, 0, 0);
    let (mut refused, mut sum) = (0, 0);
    for event in each {
        let (number, answer, flag) = model.event(event, memory);
        refused |= number;
        sum += seen(answer, u8::from(flag));
    }
    assert_eq!(refused, 0, "the stream has a refused event");
    End {
        state: encode(&model).to_vec(),
        answers: Some(sum),
    }
}

fn in_one_run(_: &[&[u8]], trace: &[u8], part: u32, memory: &mut [u8]) -> End {
    let mut state = made(Making::new(part, 0, 0));
    let ran = run_on(&mut state, u64::MAX, trace, memory, None);
    assert_eq!(ran.number, 0, "the stream has a refused event");
    End {
        state,
        answers: None,
    }
}

/// What a host sees of an event, as a number to add up.
fn seen(answer: u8, flag: u8) -> u64 {
    u64::from(answer) + 8 * u64::from(flag)
}
