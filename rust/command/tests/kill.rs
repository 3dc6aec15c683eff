//! Killed at any moment, a run leaves the old memory or the new one, byte for byte.

mod common;

use common::command::Running;
use common::judged::{run, run_command};
use common::many;
use common::played::{played, Made};
use common::random::Random;
use common::scratch::{bytes_of, is_left_by_a_kill, text, Scratch};
use sildrokk::Part;
use std::io::Write;
use std::path::{Path, PathBuf};
use std::time::{Duration, Instant};

/// The largest memory there is, so that its writing takes as long as it can.
const PART: Part = Part::Mr45v200b;

/// Stores this byte at both ends of every page, by one WRITE each, so that no part of an old and a new
/// memory are alike.
fn storing(byte: u8) -> Vec<u8> {
    let mut host = common::bus::Spi::on();
    for page in (0..PART.size() as u32).step_by(4096) {
        host.store(&page.to_be_bytes()[1..], &[byte]);
        host.store(&(page + 4095).to_be_bytes()[1..], &[byte]);
    }
    host.trace()
}

struct Bench {
    scratch: Scratch,
    file: PathBuf,
    traces: [Vec<u8>; 2],
    memories: [Vec<u8>; 2],
}

impl Bench {
    /// With the memory of the first trace in the file.
    fn new() -> Bench {
        let made = Made::with_memory(PART, Random::of(30).bytes(PART.size()));
        let traces = [storing(0x55), storing(0xaa)];
        let memories = [0, 1].map(|at| played(&made, &traces[at], u64::MAX).memory);
        let scratch = Scratch::new();
        let file = scratch.file("chip.bin", &memories[0]);
        Bench {
            scratch,
            file,
            traces,
            memories,
        }
    }

    /// Which of the two memories the file has; any other is the fault that is looked for.
    #[track_caller]
    fn which(&self) -> usize {
        let found = bytes_of(&self.file);
        let which = self.memories.iter().position(|memory| *memory == found);
        which.unwrap_or_else(|| panic!("a memory between old and new, of {} bytes", found.len()))
    }

    fn run(&self) -> Running {
        Running::of(&mut run_command(
            &Made::of(PART),
            &["--memory", text(&self.file)],
        ))
    }

    /// Plays the other memory's trace up to its end, and closes the pipe: what follows is the commit.
    fn play(&self, which: usize) -> Running {
        let mut running = self.run();
        let mut pipe = running.input.take().unwrap();
        pipe.write_all(&self.traces[1 - which]).unwrap();
        running
    }

    /// The next run does what it is to, and nothing is left but the memory and what kills may leave.
    fn works_after_all(&self) {
        let which = self.which();
        let words = ["--memory", text(&self.file)];
        run(&Made::of(PART), &self.traces[1 - which], &words).well();
        assert_eq!(self.which(), 1 - which);
        let mut names = self.scratch.names();
        names.retain(|name| !is_left_by_a_kill(name, "chip.bin"));
        assert_eq!(names, ["chip.bin"]);
    }
}

/// Turns round until the time is over: sleeping is too coarse.
fn spin(time: Duration) {
    let begun = Instant::now();
    while begun.elapsed() < time {
        std::hint::spin_loop();
    }
}

/// How long a run takes at most from the end of its trace on, of a few.
fn commit_time(bench: &Bench) -> Duration {
    let time = |_| {
        let mut running = bench.play(bench.which());
        let begun = Instant::now();
        assert_eq!(running.waited().code(), Some(0));
        begun.elapsed()
    };
    (0..9).map(time).max().unwrap()
}

/// Kills a run so long after the end of its trace; whether the memory is the new one, and whether the
/// run had ended by itself.
fn killed_after(bench: &Bench, delay: Duration) -> (bool, bool) {
    let before = bench.which();
    let mut running = bench.play(before);
    spin(delay);
    running.child.kill().unwrap();
    let whole = running.waited().code().is_some();
    let new = bench.which() != before;
    assert!(new || !whole, "a run that ended well left the old memory");
    (new, whole)
}

/// Most of the moments lie about the commit: from the end of the trace to somewhat past the end.
#[test]
fn about_the_commit() {
    let (bench, mut random) = (Bench::new(), Random::of(31));
    let time = commit_time(&bench);
    let kills = many(600, 10);
    let ends: Vec<(bool, bool)> = (0..kills)
        .map(|_| {
            killed_after(
                &bench,
                time.mul_f64(random.within(0..1_200) as f64 / 1_000.0),
            )
        })
        .collect();
    let killed: Vec<bool> = ends
        .iter()
        .filter(|(_, whole)| !whole)
        .map(|(new, _)| *new)
        .collect();
    let new = killed.iter().filter(|new| **new).count();
    println!("{} killed, {new} of them with the new memory", killed.len());
    assert!(
        killed.len() > kills / 4,
        "only {} were killed at work",
        killed.len()
    );
    assert!(
        new > 0 && new < killed.len(),
        "{new} of {} killed runs left the new memory",
        killed.len()
    );
    bench.works_after_all();
}

/// From the beginning of the process on, with the whole trace waiting for it.
#[test]
fn from_the_first_moment_on() {
    let (bench, mut random) = (Bench::new(), Random::of(32));
    let trace = bench.scratch.path("long.trace");
    let time = whole_time(&bench, &trace);
    for _ in 0..many(300, 10) {
        let before = bench.which();
        std::fs::write(&trace, &bench.traces[1 - before]).unwrap();
        let mut command = common::command::sildrokk(["run", "2", text(&trace), "--memory"]);
        let mut running = Running::of(command.arg(&bench.file));
        spin(time.mul_f64(random.within(0..1_100) as f64 / 1_000.0));
        running.child.kill().unwrap();
        running.waited();
        bench.which();
    }
    std::fs::remove_file(&trace).unwrap();
    bench.works_after_all();
}

/// How long a run takes in all, at most of a few.
fn whole_time(bench: &Bench, trace: &Path) -> Duration {
    let time = |_| {
        std::fs::write(trace, &bench.traces[1 - bench.which()]).unwrap();
        let begun = Instant::now();
        let mut command = common::command::sildrokk(["run", "2", text(trace), "--memory"]);
        common::command::ended(command.arg(&bench.file)).well();
        begun.elapsed()
    };
    (0..5).map(time).max().unwrap()
}

/// Where there was no file the old memory is none, or one of zeros; never a part of one.
#[test]
fn a_new_file() {
    let (bench, mut random) = (Bench::new(), Random::of(33));
    let time = commit_time(&bench).max(Duration::from_millis(3));
    let zeros = Made::of(PART);
    let new = played(&zeros, &bench.traces[0], u64::MAX).memory;
    for _ in 0..many(200, 10) {
        let scratch = Scratch::new();
        let file = scratch.path("chip.bin");
        let mut running = Running::of(&mut run_command(&zeros, &["--memory", text(&file)]));
        let pipe = running.input.take();
        // It may be killed before it has read anything.
        spin(time.mul_f64(random.within(0..500) as f64 / 1_000.0));
        random
            .once_in(2)
            .then(|| pipe.map(|mut it| it.write_all(&bench.traces[0])));
        spin(time.mul_f64(random.within(0..1_000) as f64 / 1_000.0));
        running.child.kill().unwrap();
        running.waited();
        let left = file.exists().then(|| bytes_of(&file));
        let whole = left.is_none_or(|bytes| bytes == zeros.memory || bytes == new);
        assert!(whole, "a memory between old and new");
        run(&zeros, &[], &["--memory", text(&file)]).well();
        let mut names = scratch.names();
        names.retain(|name| !is_left_by_a_kill(name, "chip.bin"));
        assert_eq!(names, ["chip.bin"]);
    }
}
