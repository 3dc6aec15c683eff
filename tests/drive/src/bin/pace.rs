//! How fast builds are beside each other: `pace ROUNDS FOLDER FOLDER..`. Each folder has one archive
//! as shared objects at several places of the code (tests/pace makes them), since the place alone
//! moves a loop's time. Of each place the least time of the rounds counts; printed are the mean over
//! the places, their spread, and the mean over that of the first folder. All builds take turns within
//! milliseconds, and must leave the same memory.

use drive::loaded::Loaded;
use drive::streams::{kinds, Stream};
use std::fs::DirEntry;
use std::hint::black_box;
use std::path::Path;
use std::process::ExitCode;
use std::time::Instant;
use twin::PARTS;

/// One archive, at each of its places.
struct Build {
    name: String,
    places: Vec<Loaded>,
}

fn main() -> ExitCode {
    let mut words = std::env::args().skip(1);
    let rounds = words.next().and_then(|word| word.parse().ok());
    let builds: Result<Vec<Build>, String> = words.map(|word| load(&word)).collect();
    match (rounds, builds) {
        (Some(rounds), Ok(builds)) if !builds.is_empty() => table(rounds, &builds),
        (_, Err(fault)) => {
            eprintln!("{fault}");
            ExitCode::FAILURE
        }
        _ => {
            eprintln!("pace ROUNDS FOLDER..");
            ExitCode::FAILURE
        }
    }
}

fn load(folder: &str) -> Result<Build, String> {
    let fault = |error| format!("{folder}: {error}");
    let listed = std::fs::read_dir(folder).map_err(fault)?;
    let each = |entry: std::io::Result<DirEntry>| Loaded::open(&entry.map_err(fault)?.path());
    let places = listed.map(each).collect::<Result<_, _>>()?;
    let name = Path::new(folder).file_name();
    let name = name.map_or_else(String::new, |it| it.to_string_lossy().into_owned());
    Ok(Build { name, places })
}

fn table(rounds: usize, builds: &[Build]) -> ExitCode {
    print!("ns an event  ");
    for build in builds {
        print!("  {:<22}", build.name);
    }
    println!();
    for stream in kinds() {
        let Some(times) = measure(&stream, rounds, builds) else {
            println!("{}: the builds differ", stream.name);
            return ExitCode::FAILURE;
        };
        print!("{:<13}", stream.name);
        let (first, _) = mean_and_spread(&times[0]);
        for (mean, spread) in times.iter().map(|it| mean_and_spread(it)) {
            print!("  {mean:5.2} ± {spread:4.2}  {:5.3}   ", mean / first);
        }
        println!();
    }
    ExitCode::SUCCESS
}

/// The least time of an event in each place of each build, if all of them leave the same memory.
fn measure(stream: &Stream, rounds: usize, builds: &[Build]) -> Option<Vec<Vec<f64>>> {
    let events = twin::trace::events(&stream.trace).count() as f64;
    let mut memory = vec![0; PARTS[stream.part as usize].size];
    let mut left = None;
    let least = builds.iter().map(|it| vec![f64::INFINITY; it.places.len()]);
    let mut least: Vec<Vec<f64>> = least.collect();
    for _ in 0..rounds {
        for (times, build) in least.iter_mut().zip(builds) {
            for (time, place) in times.iter_mut().zip(&build.places) {
                memory.fill(0);
                let begun = Instant::now();
                let number = place.run(stream.part, black_box(&stream.trace), &mut memory);
                *time = time.min(begun.elapsed().as_secs_f64() * 1e9 / events);
                if number != 0 || *left.get_or_insert_with(|| memory.clone()) != memory {
                    return None;
                }
            }
        }
    }
    Some(least)
}

fn mean_and_spread(times: &[f64]) -> (f64, f64) {
    let count = times.len() as f64;
    let mean = times.iter().sum::<f64>() / count;
    let squares = times.iter().map(|it| (it - mean).powi(2));
    (mean, (squares.sum::<f64>() / count).sqrt())
}
