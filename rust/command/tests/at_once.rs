//! Two runs on one memory file: while one is at work another is refused, and nothing that a run stored is
//! lost to another.

mod common;

use common::bus::Spi;
use common::command::{wait_until, Ended, Running};
use common::judged::{run, run_command};
use common::many;
use common::played::Made;
use common::scratch::{bytes_of, text, Scratch};
use sildrokk::Part;
use std::fs;
use std::io::Write;
use std::os::unix::fs::{symlink, MetadataExt};
use std::path::Path;
use std::thread;

const PART: Part = Part::Mr45v032a;

fn storing(address: u16, byte: u8) -> Vec<u8> {
    let mut host = Spi::on();
    host.store(&address.to_be_bytes(), &[byte]);
    host.trace()
}

fn run_on(file: &Path, trace: &[u8]) -> Ended {
    run(&Made::of(PART), trace, &["--memory", text(file)])
}

/// A run at work: it has the file, and waits for more of its trace.
fn at_work(file: &Path, trace: &[u8]) -> Running {
    let command = &mut run_command(&Made::of(PART), &["--memory", text(file)]);
    let mut running = Running::of(command);
    running.input.as_mut().unwrap().write_all(trace).unwrap();
    wait_until("the first run has its file", || locked(file));
    running
}

/// Whether somebody has a lock on the file, which another name may lead to.
fn locked(file: &Path) -> bool {
    let Ok(metadata) = fs::metadata(file) else {
        return false;
    };
    let locks = fs::read_to_string("/proc/locks").expect("the locks");
    locks.contains(&format!(":{} ", metadata.ino()))
}

#[test]
fn a_second_run_is_refused() {
    let scratch = Scratch::new();
    let file = scratch.file("chip.bin", [7; 4096]);
    let first = at_work(&file, &storing(0, 1));
    run_on(&file, &storing(1, 2)).bad_use(&["chip.bin"]);
    assert_eq!(bytes_of(&file), [7; 4096]);
    first.end().well();
    assert_eq!(bytes_of(&file)[..3], [1, 7, 7]);
    run_on(&file, &storing(1, 2)).well();
    assert_eq!(bytes_of(&file)[..3], [1, 2, 7]);
    assert_eq!(scratch.names(), ["chip.bin"]);
}

/// By whatever name it comes: the file itself is locked.
#[test]
fn a_second_run_by_a_link_is_refused() {
    let scratch = Scratch::new();
    let file = scratch.file("chip.bin", [7; 4096]);
    symlink(&file, scratch.path("link.bin")).unwrap();
    fs::hard_link(&file, scratch.path("twin.bin")).unwrap();
    let first = at_work(&file, &storing(0, 1));
    for name in ["link.bin", "twin.bin"] {
        run_on(&scratch.path(name), &storing(1, 2)).bad_use(&["bin"]);
    }
    first.end().well();
    assert_eq!(bytes_of(&file)[..3], [1, 7, 7]);
    let by_link = at_work(&scratch.path("link.bin"), &storing(0, 3));
    run_on(&file, &storing(1, 2)).bad_use(&["chip.bin"]);
    by_link.end().well();
    assert_eq!(bytes_of(&file)[..3], [3, 7, 7]);
}

/// Also where the first run is the one that makes the file.
#[test]
fn a_second_run_on_a_new_file_is_refused() {
    let scratch = Scratch::new();
    let file = scratch.path("chip.bin");
    let first = at_work(&file, &storing(0, 1));
    run_on(&file, &storing(1, 2)).bad_use(&["chip.bin"]);
    first.end().well();
    assert_eq!(bytes_of(&file)[..3], [1, 0, 0]);
}

/// Nothing has to be cleaned up after a crash.
#[test]
fn a_killed_run_leaves_no_lock() {
    let scratch = Scratch::new();
    let file = scratch.file("chip.bin", [7; 4096]);
    let mut first = at_work(&file, &storing(0, 1));
    first.child.kill().unwrap();
    first.waited();
    run_on(&file, &storing(1, 2)).well();
    assert_eq!(bytes_of(&file)[..3], [7, 2, 7]);
    assert_eq!(scratch.names(), ["chip.bin"]);
}

/// Runs on other files, and `wave` on the same, go on beside it.
#[test]
fn others_go_on() {
    let scratch = Scratch::new();
    let (file, other) = (
        scratch.file("chip.bin", [7; 4096]),
        scratch.file("other.bin", [7; 4096]),
    );
    let first = at_work(&file, &storing(0, 1));
    run_on(&other, &storing(1, 2)).well();
    let wave = scratch.path("run.vcd");
    let mut words = common::command::sildrokk(["wave", "0", "-", "-o", text(&wave), "--memory"]);
    common::command::fed(words.arg(&file), &[0x01, 0x19]).with(0);
    first.end().well();
    assert_eq!((bytes_of(&file)[0], bytes_of(&other)[1]), (1, 2));
}

/// If somebody moves the file away while a run is at work, that stands.
#[test]
fn a_file_that_is_moved_away() {
    let scratch = Scratch::new();
    let file = scratch.file("chip.bin", [7; 4096]);
    let first = at_work(&file, &storing(0, 1));
    fs::rename(&file, scratch.path("moved.bin")).unwrap();
    first.end().bad_use(&["chip.bin"]);
    assert_eq!(bytes_of(&scratch.path("moved.bin")), [7; 4096]);
    assert_eq!(scratch.names(), ["moved.bin"]);
}

/// Or puts another in its place.
#[test]
fn a_file_that_is_replaced_by_another() {
    let scratch = Scratch::new();
    let file = scratch.file("chip.bin", [7; 4096]);
    let first = at_work(&file, &storing(0, 1));
    fs::rename(scratch.file("other.bin", [8; 4096]), &file).unwrap();
    first.end().bad_use(&["chip.bin"]);
    assert_eq!(bytes_of(&file), [8; 4096]);
    assert_eq!(scratch.names(), ["chip.bin"]);
}

/// Stores a byte, again and again until the file was free.
fn stored_at_last(file: &Path, address: u16) -> usize {
    let mut refused = 0;
    while run_on(file, &storing(address, 1)).code() != 0 {
        refused += 1;
        assert!(refused < 100_000, "never free");
    }
    refused
}

/// Several at once, each with a byte of its own: in the end every byte is there. A run that took the file
/// before another put a new one in its place, and the lock after, would lose one.
#[test]
fn no_run_is_lost_to_another() {
    let scratch = Scratch::new();
    let file = scratch.path("chip.bin");
    let (hosts, each) = (4, many(100, 10) as u16);
    let refused: usize = thread::scope(|scope| {
        let begin = |host: u16| {
            let file = &file;
            let stores = move || {
                (0..each)
                    .map(|at| stored_at_last(file, host * each + at))
                    .sum::<usize>()
            };
            scope.spawn(stores)
        };
        let begun: Vec<_> = (0..hosts).map(begin).collect();
        begun
            .into_iter()
            .map(|host| host.join().expect("a host"))
            .sum()
    });
    let all = usize::from(hosts * each);
    let memory = bytes_of(&file);
    let lost = memory[..all].iter().filter(|byte| **byte != 1).count();
    assert_eq!(lost, 0, "of {all} bytes");
    assert!(memory[all..].iter().all(|byte| *byte == 0));
    assert!(refused > 0, "no two were at work at once");
    assert_eq!(scratch.names(), ["chip.bin"]);
}
