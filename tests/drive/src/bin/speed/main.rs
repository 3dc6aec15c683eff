//! How fast the proved build is, in one process: streams of pin events beside the twin, the same events
//! one at a time, and selections as bytes beside its own pins, the twin and a plain copy. Interleaved
//! rounds: the figures are their medians, and of single events the quickest. `speed [ROUNDS [LIMIT]]`; it
//! fails with 1 if a ratio to the twin is above the limit, or one of single events or of a selection as
//! bytes above its own, and with 2 if a word is no number for its place.

mod bytes;
mod events;
mod pins;

use drive::streams::kinds;
use std::hint::black_box;
use std::process::ExitCode;
use std::str::FromStr;
use std::time::Instant;

fn main() -> ExitCode {
    match words() {
        Ok((rounds, limit)) => tables(rounds, limit),
        Err(wrong) => {
            eprintln!("{wrong}; speed [ROUNDS [LIMIT]]");
            ExitCode::from(2)
        }
    }
}

/// Rounds and limit. One that cannot be read is not taken as none: nothing would then be limited.
fn words() -> Result<(usize, f64), String> {
    let mut words = std::env::args().skip(1);
    let rounds = number(words.next(), 15, "ROUNDS", |&it| it > 0)?;
    let limit = number(words.next(), f64::INFINITY, "LIMIT", |&it| it > 0.0)?;
    match words.next() {
        None => Ok((rounds, limit)),
        Some(word) => Err(format!("{word:?} is one word too many")),
    }
}

fn number<T: FromStr>(
    word: Option<String>,
    none: T,
    name: &str,
    right: fn(&T) -> bool,
) -> Result<T, String> {
    let Some(word) = word else { return Ok(none) };
    let read = word.parse().ok().filter(right);
    read.ok_or(format!("{word:?} is no {name}"))
}

/// Prints all tables, and what is above its limit.
fn tables(rounds: usize, limit: f64) -> ExitCode {
    let streams = kinds();
    let mut high = Vec::new();
    let ratios = pins::table(&streams, rounds);
    if ratios.iter().any(|&ratio| ratio > limit) {
        high.push(format!("a ratio is above {limit}"));
    }
    println!();
    high.extend(events::table(&streams, rounds));
    println!();
    high.extend(bytes::table(rounds, limit));
    high.iter().for_each(|line| println!("{line}"));
    if high.is_empty() {
        ExitCode::SUCCESS
    } else {
        ExitCode::FAILURE
    }
}

/// What a call gives, and its seconds.
fn timed<T>(call: impl FnOnce() -> T) -> (T, f64) {
    let begun = Instant::now();
    let given = black_box(call());
    (given, begun.elapsed().as_secs_f64())
}

/// The median of a figure over the rounds.
fn median<T>(rounds: &[T], figure: impl Fn(&T) -> f64) -> f64 {
    let mut figures: Vec<f64> = rounds.iter().map(figure).collect();
    figures.sort_by(f64::total_cmp);
    figures[figures.len() / 2]
}
