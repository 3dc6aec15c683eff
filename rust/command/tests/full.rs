//! Disks that are full or may only be read. Each is a small file system in memory, mounted in a mount
//! namespace of its own, so that nothing of it is left. That needs root: without it these tests fail.

mod common;

use common::bus::Spi;
use common::command::{ended, Ended};
use common::played::{played, Made};
use common::random::Random;
use common::report::Report;
use common::scratch::{bytes_of, text, Scratch};
use sildrokk::Part;
use std::process::Command;

const PART: Part = Part::Mr45v200b;

fn storing() -> Vec<u8> {
    let mut host = Spi::on();
    host.store(&[0x03, 0xff, 0xff], &[0x5a, 0xa5]);
    host.trace()
}

/// A folder with a trace and a memory, and an empty one as the place to mount on.
fn bench() -> Scratch {
    let scratch = Scratch::new();
    scratch.file("story.trace", storing());
    scratch.file("old.bin", vec![7; PART.size()]);
    std::fs::create_dir(scratch.path("disk")).unwrap();
    scratch
}

/// The memory after the story.
fn new() -> Vec<u8> {
    played(
        &Made::with_memory(PART, vec![7; PART.size()]),
        &storing(),
        u64::MAX,
    )
    .memory
}

/// How the mount fails, told from how the command does.
const NO_MOUNT: i32 = 77;

/// Mounts a file system with these options, which then has the old memory as `disk/chip.bin`, and does
/// what the script says, in the folder of the bench; `$run` is the command with its part and trace.
fn on_disk(scratch: &Scratch, options: &str, script: &str) -> Ended {
    let script = format!(
        "cp old.bin disk/chip.bin || exit {NO_MOUNT}
         run=\"$2 run 2 story.trace\"
         {script}"
    );
    on_small_disk(scratch, options, &script)
}

/// The same with nothing on the disk.
fn on_small_disk(scratch: &Scratch, options: &str, script: &str) -> Ended {
    let script = format!(
        "cd \"$1\"
         mount -t tmpfs -o {options} tmpfs disk || exit {NO_MOUNT}
         {script}"
    );
    let mut command = Command::new("unshare");
    command.args(["--mount", "sh", "-c", &script, "sh", text(scratch.folder())]);
    let done = ended(command.arg(env!("CARGO_BIN_EXE_sildrokk")));
    assert_ne!(
        done.code(),
        NO_MOUNT,
        "cannot mount, which needs root: {}",
        done.err
    );
    done
}

/// Fills what is left of the disk.
const FILL: &str = "cat /dev/zero > disk/filler 2>/dev/null";

/// Takes the memory out of the disk, and tells what else there is, with the status of the command.
const LOOK: &str = "status=$?; cp disk/chip.bin after.bin; ls -A disk > names; exit $status";

/// Status 2, a sentence with this name, the old memory and no other file but these.
#[track_caller]
fn is_old(scratch: &Scratch, done: Ended, name: &str, names: &str) {
    done.bad_use(&[name]);
    assert!(
        bytes_of(&scratch.path("after.bin")) == vec![7; PART.size()],
        "not the old memory"
    );
    assert_eq!(
        String::from_utf8(bytes_of(&scratch.path("names"))).unwrap(),
        names
    );
}

/// The old memory has room, the new one beside it has not: neither at all nor in part.
#[test]
fn no_room_for_the_new_memory() {
    for size in ["size=300k", "size=500k"] {
        let scratch = bench();
        let script = format!("$run --memory disk/chip.bin; {LOOK}");
        let done = on_disk(&scratch, size, &script);
        is_old(&scratch, done, "chip.bin", "chip.bin\n");
    }
}

#[test]
fn no_room_at_all() {
    let scratch = bench();
    let script = format!("{FILL}; $run --memory disk/chip.bin; {LOOK}");
    let done = on_disk(&scratch, "size=400k", &script);
    is_old(&scratch, done, "chip.bin", "chip.bin\nfiller\n");
}

/// Not even for another name.
#[test]
fn no_room_for_a_name() {
    let scratch = bench();
    let script = format!("$run --memory disk/chip.bin; {LOOK}");
    let done = on_disk(&scratch, "nr_inodes=2", &script);
    is_old(&scratch, done, "chip.bin", "chip.bin\n");
}

/// With room again the next run does what it is to.
#[test]
fn room_again() {
    let scratch = bench();
    let script = format!(
        "{FILL}; $run --memory disk/chip.bin 2>/dev/null; rm disk/filler;
         $run --memory disk/chip.bin; {LOOK}"
    );
    on_disk(&scratch, "size=600k", &script).well();
    assert!(
        bytes_of(&scratch.path("after.bin")) == new(),
        "not the new memory"
    );
    assert_eq!(bytes_of(&scratch.path("names")), b"chip.bin\n");
}

/// A memory that is to be made and has no room leaves nothing.
#[test]
fn no_room_for_a_memory_that_is_made() {
    let scratch = bench();
    let script = format!("$run --memory disk/none.bin; {LOOK}");
    let done = on_disk(&scratch, "size=400k", &script);
    is_old(&scratch, done, "none.bin", "chip.bin\n");
}

/// Answers that have no room leave the memory as it was.
#[test]
fn no_room_for_the_answers() {
    let scratch = bench();
    let script = format!("{FILL}; $run --memory old.bin --answers disk/answers; {LOOK}");
    let done = on_disk(&scratch, "size=400k", &script);
    done.bad_use(&["answers"]);
    assert!(
        bytes_of(&scratch.path("old.bin")) == vec![7; PART.size()],
        "not the old memory"
    );
}

#[test]
fn a_disk_that_may_only_be_read() {
    let scratch = bench();
    let read_only = "mount -o remount,ro disk || exit 77";
    let script = format!("{read_only}; $run --memory disk/chip.bin; {LOOK}");
    let done = on_disk(&scratch, "size=2m", &script);
    is_old(&scratch, done, "chip.bin", "chip.bin\n");
    let script = format!("{read_only}; $run --memory disk/none.bin; {LOOK}");
    let done = on_disk(&scratch, "size=2m", &script);
    is_old(&scratch, done, "none.bin", "chip.bin\n");
}

/// `wave` only reads its memory, so it may be there.
#[test]
fn wave_reads_from_such_a_disk() {
    let scratch = bench();
    let script = "mount -o remount,ro disk || exit 77
        $2 wave 2 story.trace --memory disk/chip.bin -o run.vcd";
    on_disk(&scratch, "size=2m", script).with(0);
    assert!(scratch.path("run.vcd").is_file());
}

/// A capture of so many samples, with a change now and then.
fn long_capture(samples: usize) -> String {
    let mut random = Random::of(95);
    let names = ["!", "%", "&"];
    let vars = names.iter().zip(["SCL", "SDA", "WP"]);
    let vars = vars.map(|(mark, name)| format!("$var wire 1 {mark} {name} $end\n"));
    let mut text = format!("$timescale 1 us $end\n{}", vars.collect::<String>());
    text += "$enddefinitions $end\n#0\n1!\n1%\n0&\n";
    let mut time = random.within(1..11);
    while time < samples {
        text += &format!(
            "#{time}\n{}{}\n",
            random.within(0..2),
            random.one_of(&names)
        );
        time += random.within(1..11);
    }
    text + &format!("#{samples}\n")
}

/// What is needed to read a capture may have no room either: then it is bad use, and no part of the
/// capture is taken for the whole. sigrok-cli gives status 0 in such a case.
#[test]
fn no_room_to_read_a_capture() {
    let samples = 5_000_000;
    let scratch = bench();
    scratch.file("long.vcd", long_capture(samples));
    for size in ["size=300k", "size=1000k"] {
        let script = "rm -f a.trace
            TMPDIR=$1/disk $2 capture 3 long.vcd --map scl=SCL,sda=SDA,wp=WP -o a.trace";
        let done = on_small_disk(&scratch, size, script);
        match done.code() {
            0 => assert_eq!(
                Report::of(&done.out).numbers("read")[0],
                samples as u64,
                "{size}"
            ),
            _ => drop(done.bad_use(&["long.vcd"])),
        }
    }
}
