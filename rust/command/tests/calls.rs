//! The system calls of a run, one by one, by strace: what is synced before what, a kill at each of them,
//! and a failure of each that a disk can give.

mod common;

use common::bus::Spi;
use common::command::{ended, sildrokk, wait_until, Ended, Running};
use common::played::{played, Made};
use common::scratch::{bytes_of, is_left_by_a_kill, text, Scratch};
use sildrokk::Part;
use std::path::PathBuf;
use std::process::Command;

const PART: Part = Part::Mr45v032a;

/// A folder with a trace and a memory of sevens.
struct Bench {
    scratch: Scratch,
    memory: PathBuf,
    new: Vec<u8>,
}

const OLD: [u8; 4096] = [7; 4096];

impl Bench {
    fn new() -> Bench {
        let mut host = Spi::on();
        host.store(&[0x01, 0x23], &[1, 2, 3]);
        let scratch = Scratch::new();
        scratch.file("story.trace", host.trace());
        let made = Made::with_memory(PART, OLD.to_vec());
        let new = played(&made, &host.trace(), u64::MAX).memory;
        let memory = scratch.file("chip.bin", OLD);
        Bench {
            scratch,
            memory,
            new,
        }
    }

    /// The run under strace with these words, from the old memory.
    fn traced(&self, words: &[&str]) -> Ended {
        std::fs::write(&self.memory, OLD).unwrap();
        self.traced_on("chip.bin", words)
    }

    fn traced_on(&self, memory: &str, words: &[&str]) -> Ended {
        ended(&mut self.command(memory, words))
    }

    fn command(&self, memory: &str, words: &[&str]) -> Command {
        let mut command = Command::new("strace");
        command
            .args(["-f", "-qq", "-o", text(&self.scratch.path("calls"))])
            .args(words);
        command.arg(env!("CARGO_BIN_EXE_sildrokk"));
        command.args(["run", "0", "story.trace", "--memory", memory]);
        command.current_dir(self.scratch.folder());
        command
    }

    /// Whether the file has the new memory; anything but old and new is a fault.
    #[track_caller]
    fn is_new(&self) -> bool {
        let found = bytes_of(&self.memory);
        assert!(
            found == OLD || found == self.new,
            "a memory between old and new"
        );
        found == self.new
    }

    /// The calls that strace saw, one to a line.
    fn calls(&self) -> Vec<String> {
        let seen = String::from_utf8_lossy(&bytes_of(&self.scratch.path("calls"))).into_owned();
        seen.lines().map(str::to_string).collect()
    }
}

/// Where the one call is that has both words.
#[track_caller]
fn place(calls: &[String], call: &str, word: &str) -> usize {
    let has = |line: &String| line.contains(call) && line.contains(word);
    let places: Vec<usize> = (0..calls.len()).filter(|at| has(&calls[*at])).collect();
    assert_eq!(places.len(), 1, "{call} of {word} in {calls:#?}");
    places[0]
}

/// The new file is synced before it is put in its place, and its folder after; then comes the report.
#[test]
fn what_is_synced_before_what() {
    let bench = Bench::new();
    bench
        .traced(&[
            "-y",
            "-e",
            "trace=fsync,fdatasync,rename,renameat,renameat2,write",
        ])
        .well();
    assert!(bench.is_new());
    let calls = bench.calls();
    let folder = bench
        .scratch
        .folder()
        .file_name()
        .unwrap()
        .to_str()
        .unwrap();
    let synced = place(&calls, "sync(", "/.chip.bin.sildrokk-");
    let renamed = place(&calls, "rename", "/.chip.bin.sildrokk-");
    let folder_synced = place(&calls, "sync(", &format!("{folder}>"));
    let written = calls
        .iter()
        .rposition(|call| call.contains("write(1<"))
        .expect("a report");
    let order = [synced, renamed, folder_synced, written];
    assert!(order.is_sorted(), "{order:?} in {calls:#?}");
}

/// Nothing but the rename touches the memory file itself.
#[test]
fn the_memory_file_itself_is_never_written() {
    let bench = Bench::new();
    bench
        .traced(&[
            "-y",
            "-e",
            "trace=write,pwrite64,writev,ftruncate,truncate,copy_file_range",
        ])
        .well();
    let onto = |call: &&String| call.contains("/chip.bin>");
    assert_eq!(bench.calls().iter().find(onto), None);
}

/// A kill at each call of the run, from the first to the last.
#[test]
fn killed_at_each_call() {
    let bench = Bench::new();
    bench.traced(&[]).well();
    let kills = kills(&bench.calls());
    let mut left = Vec::new();
    for kill in &kills {
        let done = bench.traced(&["-e", kill]);
        assert_eq!(done.status.code(), None, "not killed by {kill}: {done:#?}");
        left.push(bench.is_new());
    }
    let first_new = left
        .iter()
        .position(|new| *new)
        .expect("some with the new memory");
    assert!(
        first_new > 20,
        "killed with the new memory by {:?}",
        &kills[..=first_new]
    );
    assert!(left.is_sorted(), "new and then old: {left:?}");
    bench.traced(&[]).well();
    assert!(bench.is_new());
    let mut names = bench.scratch.names();
    names.retain(|name| !is_left_by_a_kill(name, "chip.bin"));
    assert_eq!(names, ["calls", "chip.bin", "story.trace"]);
}

/// For strace: a kill at each of the calls in their order, by its name and how many of that name there
/// were up to it. What is before the first is the start of the process.
fn kills(calls: &[String]) -> Vec<String> {
    let name = |line: &String| {
        let call = line
            .split_once(' ')
            .expect("a process and a call")
            .1
            .trim_start();
        call.split('(').next().expect("a name").to_string()
    };
    let names: Vec<String> = calls.iter().map(name).collect();
    let nth = |at: usize| {
        names[..=at]
            .iter()
            .filter(|name| **name == names[at])
            .count()
    };
    let all = (1..names.len()).filter(|at| names[*at] != "execve");
    all.map(|at| format!("inject={}:signal=SIGKILL:when={}", names[at], nth(at)))
        .collect()
}

/// The same where there is no memory file: what is left is none, or one of zeros, or the new one.
#[test]
fn killed_at_each_call_of_a_making() {
    let bench = Bench::new();
    let zeros = played(
        &Made::of(PART),
        &bytes_of(&bench.scratch.path("story.trace")),
        u64::MAX,
    );
    let made = bench.scratch.path("made.bin");
    bench.traced_on("made.bin", &[]).well();
    let mut found = Vec::new();
    for kill in kills(&bench.calls()) {
        let _ = std::fs::remove_file(&made);
        let done = bench.traced_on("made.bin", &["-e", &kill]);
        assert_eq!(done.status.code(), None, "not killed by {kill}: {done:#?}");
        let left = made.exists().then(|| bytes_of(&made));
        let whole = [None, Some(vec![0; 4096]), Some(zeros.memory.clone())];
        let which = whole.iter().position(|whole| *whole == left);
        found.push(which.unwrap_or_else(|| panic!("between old and new: {kill}")));
    }
    assert!(
        found.is_sorted() && found.contains(&0) && found.contains(&2),
        "{found:?}"
    );
    bench.traced_on("made.bin", &[]).well();
    let mut names = bench.scratch.names();
    names.retain(|name| !is_left_by_a_kill(name, "made.bin"));
    assert_eq!(names, ["calls", "chip.bin", "made.bin", "story.trace"]);
}

/// Status 2 with the old memory and a sentence; or, if only the report or the sync of the folder failed,
/// with the new one and a sentence that tells of the memory; or well, if the call did not matter.
#[track_caller]
fn fails_whole(bench: &Bench, done: Ended, what: &str) {
    let new = bench.is_new();
    match done.code() {
        0 => assert!(new, "{what}: well, with the old memory"),
        2 if new => drop(done.says(&["memory", "replaced"])),
        2 => drop(done.says(&[])),
        _ => panic!("{what}: {done:#?}"),
    }
}

/// Every time that the run makes one of these calls it fails with this error.
#[track_caller]
fn failing(calls: &str, error: &str) -> usize {
    let bench = Bench::new();
    let (mut failures, mut at) = (0, 1);
    loop {
        let inject = format!("inject={calls}:error={error}:when={at}");
        let done = bench.traced(&["-e", &format!("trace={calls}"), "-e", &inject]);
        if !bench.calls().iter().any(|call| call.contains("(INJECTED)")) {
            return failures;
        }
        failures += usize::from(done.code() == 2);
        fails_whole(&bench, done, &inject);
        at += 1;
    }
}

/// Whatever the disk fails at while the memory is put in place, and the report printed.
#[test]
fn each_call_that_fails() {
    assert!(failing("write", "ENOSPC") >= 2, "memory and report");
    assert!(failing("write", "EIO") >= 2, "memory and report");
    assert!(failing("fsync,fdatasync", "EIO") >= 1);
    assert!(failing("rename,renameat,renameat2", "EIO") == 1);
    assert!(failing("flock", "ENOLCK") >= 1);
    failing("fchmod,fchown,unlink,unlinkat,ftruncate,getrandom", "EPERM");
}

/// Reading that fails is bad use, and the memory is old; so is a memory that cannot be read whole.
#[test]
fn reading_that_fails() {
    for name in ["story.trace", "chip.bin"] {
        let bench = Bench::new();
        let path = bench.scratch.path(name);
        let inject = [
            "-P",
            text(&path),
            "-e",
            "trace=read,pread64,readv",
            "-e",
            "inject=read,pread64,readv:error=EIO",
        ];
        bench.traced(&inject).bad_use(&[name]);
        assert!(!bench.is_new(), "{name}");
    }
}

/// A call that was only interrupted is made again: the first read and the first write are.
#[test]
fn interrupted_calls() {
    let bench = Bench::new();
    let path = bench.scratch.path("story.trace");
    let words = ["-P", text(&path), "-e", "inject=read:error=EINTR:when=1"];
    bench.traced(&words).well();
    assert!(bench.is_new() && bench.calls().iter().any(|line| line.contains("(INJECTED)")));
    bench
        .traced(&["-e", "trace=write", "-e", "inject=write:error=EINTR:when=1"])
        .well();
    assert!(bench.is_new() && bench.calls().iter().any(|line| line.contains("(INJECTED)")));
}

/// A run that has opened the file and is slow to lock it, while another plays to its end: nothing that
/// the other stored is lost, whether the slow one is refused or goes on from the new memory.
#[test]
fn a_run_that_is_slow_to_lock() {
    let bench = Bench::new();
    let mut host = Spi::on();
    host.store(&[0x0f, 0xff], &[9]);
    let other = bench.scratch.file("other.trace", host.trace());
    let slow = [
        "-e",
        "trace=openat,flock",
        "-e",
        "inject=flock:delay_enter=1000000:when=1",
    ];
    let running = Running::of(&mut bench.command("chip.bin", &slow));
    wait_until("the slow run has opened it", || {
        bench.scratch.path("calls").exists()
            && bench.calls().iter().any(|it| it.contains("chip.bin\""))
    });
    ended(&mut sildrokk([
        "run",
        "0",
        text(&other),
        "--memory",
        text(&bench.memory),
    ]))
    .well();
    let status = running.end().code();
    let mut meant = if status == 0 {
        bench.new.clone()
    } else {
        OLD.to_vec()
    };
    meant[0xfff] = 9;
    assert!(
        bytes_of(&bench.memory) == meant,
        "status {status}: something was lost"
    );
}
