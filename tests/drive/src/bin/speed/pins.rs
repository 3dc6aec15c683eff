//! Streams of pin events: one long trace on either side, no answers collected.

use crate::{median, timed};
use drive::streams::{spi_read, spi_write, Stream};
use drive::{Making, Ran};
use std::hint::black_box;
use twin::{Model, PARTS};

/// Prints the table; the ratio of each stream.
pub fn table(streams: &[Stream], rounds: usize) -> Vec<f64> {
    println!("                                       million events a second     ns an event");
    println!("stream         memory      events      proved        twin   ratio  proved    twin");
    let mut ratios: Vec<f64> = streams.iter().map(|it| measure(it, rounds)).collect();
    println!("\nthe same stream on memories of three sizes");
    for part in 0..3 {
        ratios.push(measure(&spi_write(part), rounds));
        ratios.push(measure(&spi_read(part), rounds));
    }
    ratios
}

/// Rounds that begin with either side in turn, each over cleared memories. The ratio is that of the
/// two times of a round, so that a load that comes and goes falls on both.
fn measure(stream: &Stream, rounds: usize) -> f64 {
    let size = PARTS[stream.part as usize].size;
    let mut events = 0;
    let mut times = Vec::new();
    for round in 0..rounds {
        let (mut one, mut two) = (vec![0; size], vec![0; size]);
        let mut ours = || timed(|| proved(stream, &mut one));
        let mut theirs = || timed(|| twin(stream, &mut two));
        let ((ran, our_time), (same, their_time)) = if round % 2 == 0 {
            (ours(), theirs())
        } else {
            let first = theirs();
            (ours(), first)
        };
        assert!(ran == same && one == two, "the two sides differ");
        assert_eq!(ran.number, 0, "the stream has a refused event");
        let flagged = ran.flag < stream.trace.len() as u64;
        assert_eq!(flagged, stream.flagged, "the flag");
        events = ran.count;
        times.push((our_time, their_time));
    }
    let (ours, theirs) = (median(&times, |it| it.0), median(&times, |it| it.1));
    let ratio = median(&times, |it| it.0 / it.1);
    let rate = |seconds: f64| events as f64 / seconds / 1e6;
    let nanos = |seconds: f64| seconds * 1e9 / events as f64;
    print!("{:<11} {size:>9} {events:>11} ", stream.name);
    print!("{:>11.1} {:>11.1} {ratio:>7.2} ", rate(ours), rate(theirs));
    println!("{:>7.1} {:>7.1}", nanos(ours), nanos(theirs));
    ratio
}

fn proved(stream: &Stream, memory: &mut [u8]) -> Ran {
    let making = Making {
        part: stream.part,
        pins: 0,
        bits: 0,
    };
    drive::run(making, u64::MAX, black_box(&stream.trace), memory, None)
}

fn twin(stream: &Stream, memory: &mut [u8]) -> Ran {
    let (_, mut model) = Model::make(stream.part, 0, 0);
    model.run_each(black_box(&stream.trace), u64::MAX, memory, |_| ())
}
