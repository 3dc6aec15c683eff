//! The memory file and the other files of a run: refused before anything is touched, old wherever the
//! run fails, and with its own place, name and permissions.

mod common;

use common::bus::Spi;
use common::command::{ended, fed, sildrokk, Ended, Running};
use common::judged::{agrees, run, run_command};
use common::played::{played, Made};
use common::scratch::{bytes_of, rights_of, stamp_of, text, Scratch};
use sildrokk::Part;
use std::fs::{self, File, Permissions};
use std::os::unix::fs::{chown, symlink, PermissionsExt};
use std::path::Path;
use std::process::{Command, Stdio};

const PART: Part = Part::Mr45v032a;

/// Stores one byte.
fn storing(byte: u8) -> Vec<u8> {
    let mut host = Spi::on();
    host.store(&[0x01, 0x23], &[byte]);
    host.trace()
}

/// A memory file of sevens in a folder of its own.
fn sevens() -> (Scratch, std::path::PathBuf) {
    let scratch = Scratch::new();
    let file = scratch.file("chip.bin", [7; 4096]);
    (scratch, file)
}

/// What the file has after `storing`.
fn stored(byte: u8) -> Vec<u8> {
    let made = Made::with_memory(PART, vec![7; 4096]);
    played(&made, &storing(byte), u64::MAX).memory
}

fn run_on(file: &Path, trace: &[u8], more: &[&str]) -> Ended {
    run(
        &Made::of(PART),
        trace,
        &[&["--memory", text(file)], more].concat(),
    )
}

#[test]
fn nothing_is_left_beside_it() {
    let (scratch, file) = sevens();
    run_on(&file, &storing(1), &[]).well();
    assert_eq!(bytes_of(&file), stored(1));
    assert_eq!(scratch.names(), ["chip.bin"]);
}

/// If no byte changed the file is left alone: not even its time is new.
#[test]
fn an_unchanged_memory_is_left_alone() {
    let (_scratch, file) = sevens();
    let before = stamp_of(&file);
    run_on(&file, &storing(7), &[]).well();
    run_on(&file, &[], &[]).well();
    run_on(&file, &[0x01, 0x19, 0x00], &[]).with(1);
    assert_eq!(stamp_of(&file), before);
    run_on(&file, &storing(8), &[]).well();
    assert_ne!(stamp_of(&file), before);
}

#[test]
fn the_new_file_has_the_permissions_of_the_old_one() {
    let (_scratch, file) = sevens();
    for (mode, byte) in [0o600, 0o640, 0o644, 0o666, 0o755].into_iter().zip(1..) {
        fs::set_permissions(&file, Permissions::from_mode(mode)).unwrap();
        run_on(&file, &storing(byte), &[]).well();
        assert_eq!(bytes_of(&file), stored(byte));
        assert_eq!(rights_of(&file).2, mode);
    }
}

/// To give a file away needs root, which these tests have.
#[test]
fn the_new_file_has_the_owner_of_the_old_one() {
    let (_scratch, file) = sevens();
    chown(&file, Some(1234), Some(2345)).expect("root");
    fs::set_permissions(&file, Permissions::from_mode(0o640)).unwrap();
    run_on(&file, &storing(1), &[]).well();
    assert_eq!(bytes_of(&file), stored(1));
    assert_eq!(rights_of(&file), (1234, 2345, 0o640));
}

/// What lies beside the memory is somebody else's, whatever it is called, and is left alone.
#[test]
fn what_lies_beside_it_is_left_alone() {
    let (scratch, file) = sevens();
    let other = scratch.file("other.bin", "precious");
    scratch.file(".chip.bin.sildrokk", "precious too");
    symlink(&other, scratch.path(".chip.bin.sildrokk-0")).unwrap();
    let names = scratch.names();
    run_on(&file, &storing(1), &[]).well();
    assert_eq!(bytes_of(&file), stored(1));
    assert_eq!(bytes_of(&other), b"precious");
    assert_eq!(
        bytes_of(&scratch.path(".chip.bin.sildrokk")),
        b"precious too"
    );
    assert_eq!(scratch.names(), names);
}

/// A file that is a link is followed: the link stays, and what it leads to is new.
#[test]
fn a_link_is_followed() {
    let (scratch, file) = sevens();
    let elsewhere = Scratch::new();
    let link = elsewhere.path("link.bin");
    symlink(&file, &link).unwrap();
    run_on(&link, &storing(1), &[]).well();
    assert!(fs::symlink_metadata(&link).unwrap().is_symlink());
    assert_eq!(bytes_of(&file), stored(1));
    assert_eq!(
        (scratch.names(), elsewhere.names()),
        (vec!["chip.bin".into()], vec!["link.bin".into()])
    );
}

/// By a name without a folder, as it is mostly given.
#[test]
fn a_name_alone_is_in_the_working_folder() {
    let (scratch, file) = sevens();
    let mut command = sildrokk(["run", "0", "-", "--memory", "chip.bin"]);
    fed(command.current_dir(scratch.folder()), &storing(1)).well();
    assert_eq!(bytes_of(&file), stored(1));
    let mut command = sildrokk(["run", "0", "-", "--memory", "new.bin"]);
    fed(command.current_dir(scratch.folder()), &[]).well();
    assert_eq!(scratch.names(), ["chip.bin", "new.bin"]);
}

/// Whatever is no plain file is refused, and nothing hangs on opening it.
#[test]
fn no_plain_file() {
    let scratch = Scratch::new();
    fs::create_dir(scratch.path("folder")).unwrap();
    let _socket = std::os::unix::net::UnixListener::bind(scratch.path("socket")).unwrap();
    ended(Command::new("mkfifo").arg(scratch.path("pipe"))).well();
    symlink(scratch.path("pipe"), scratch.path("link to pipe")).unwrap();
    let names = ["folder", "link to pipe", "pipe", "socket"];
    for name in names {
        // A link may be called by what it leads to.
        let told = run_on(&scratch.path(name), &storing(1), &[]);
        told.bad_use(&[name.rsplit(' ').next().unwrap()]);
    }
    run_on(Path::new("/dev/null"), &storing(1), &[]).bad_use(&["/dev/null"]);
    assert_eq!(scratch.names(), names);
}

/// A folder that is not there is not made.
#[test]
fn no_such_folder() {
    let scratch = Scratch::new();
    run_on(&scratch.path("none/chip.bin"), &storing(1), &[]).bad_use(&["none/chip.bin"]);
    assert_eq!(scratch.names(), [""; 0]);
}

/// A trace that is not there, or cannot be read, leaves the memory as it was.
#[test]
fn a_trace_that_cannot_be_read() {
    let (scratch, file) = sevens();
    let before = stamp_of(&file);
    for trace in [&scratch.path("missing.trace"), scratch.folder()] {
        let mut command = sildrokk(["run", "0", text(trace), "--memory", text(&file)]);
        ended(&mut command).bad_use(&[text(trace)]);
        assert_eq!(stamp_of(&file), before);
        assert_eq!(scratch.names(), ["chip.bin"]);
    }
}

/// A run that is bad use makes no memory file either.
#[test]
fn bad_use_makes_no_memory() {
    let scratch = Scratch::new();
    let (missing, folder) = (scratch.path("missing.trace"), text(scratch.folder()));
    let cases = [
        (text(&missing), "/dev/null"),
        (folder, "/dev/null"),
        ("-", "/dev/full"),
    ];
    for (trace, answers) in cases {
        let mut command = sildrokk(["run", "0", trace, "--answers", answers, "--memory"]);
        fed(command.arg(scratch.path("new.bin")), &storing(1)).bad_use(&[]);
        assert_eq!(scratch.names(), [""; 0], "{trace} {answers}");
    }
}

/// The same command without the right to go past permissions, which root has.
fn bound_by_permissions(words: &[&str]) -> Command {
    let mut command = Command::new("setpriv");
    command.args(["--bounding-set=-all", "--inh-caps=-all"]);
    command.arg(env!("CARGO_BIN_EXE_sildrokk")).args(words);
    command
}

#[test]
fn files_that_may_not_be_read() {
    let (scratch, file) = sevens();
    let trace = scratch.file("secret.trace", storing(1));
    for (closed, name) in [(&trace, "secret.trace"), (&file, "chip.bin")] {
        fs::set_permissions(closed, Permissions::from_mode(0o000)).unwrap();
        let words = ["run", "0", text(&trace), "--memory", text(&file)];
        ended(&mut bound_by_permissions(&words)).bad_use(&[name]);
        fs::set_permissions(closed, Permissions::from_mode(0o644)).unwrap();
        assert_eq!(bytes_of(&file), [7; 4096]);
    }
    assert_eq!(scratch.names(), ["chip.bin", "secret.trace"]);
}

/// Where nothing can be put beside it the memory stays old.
#[test]
fn a_folder_that_may_not_be_written() {
    let (scratch, file) = sevens();
    let before = stamp_of(&file);
    let trace = scratch.file("story.trace", storing(1));
    fs::set_permissions(scratch.folder(), Permissions::from_mode(0o555)).unwrap();
    let told = |name: &str| {
        let file = scratch.path(name);
        ended(&mut bound_by_permissions(&[
            "run",
            "0",
            text(&trace),
            "--memory",
            text(&file),
        ]))
    };
    let (old, new) = (told("chip.bin"), told("new.bin"));
    fs::set_permissions(scratch.folder(), Permissions::from_mode(0o755)).unwrap();
    old.bad_use(&["chip.bin"]);
    new.bad_use(&["new.bin"]);
    assert_eq!(stamp_of(&file), before);
    assert_eq!(scratch.names(), ["chip.bin", "story.trace"]);
}

/// Answers that cannot be written leave the memory as it was, also where the disk is full only as the
/// last of them is written.
#[test]
fn answers_that_cannot_be_written() {
    let (scratch, file) = sevens();
    let before = stamp_of(&file);
    let folder = text(scratch.folder()).to_string();
    for place in ["/dev/full", &folder, &format!("{folder}/none/answers.txt")] {
        run_on(&file, &storing(1), &["--answers", place]).bad_use(&[place]);
        assert_eq!(stamp_of(&file), before, "{place}");
    }
    assert_eq!(scratch.names(), ["chip.bin"]);
}

/// What is read is never written: it would be lost.
#[test]
fn a_file_that_is_read_is_not_written() {
    let (scratch, file) = sevens();
    let trace = scratch.file("story.trace", storing(1));
    symlink(&trace, scratch.path("link.trace")).unwrap();
    let outputs = ["chip.bin", "story.trace", "link.trace"];
    for (name, option) in outputs
        .iter()
        .flat_map(|name| [(*name, "--answers"), (*name, "-o")])
    {
        let mut command = sildrokk([if option == "-o" { "wave" } else { "run" }, "0"]);
        command.args([text(&trace), "--memory", text(&file), option]);
        ended(command.arg(scratch.path(name))).bad_use(&["same file"]);
        let left = (bytes_of(&trace), bytes_of(&file));
        assert_eq!(left, (storing(1), vec![7; 4096]), "{option} {name}");
    }
}

/// By whatever name: another link to the memory is the memory.
#[test]
fn an_output_by_another_name_of_the_memory() {
    for words in [["run", "--answers"], ["wave", "-o"]] {
        let (scratch, file) = sevens();
        let (twin, trace) = (
            scratch.path("twin.bin"),
            scratch.file("a.trace", [0x01, 0x19]),
        );
        fs::hard_link(&file, &twin).unwrap();
        let mut command = sildrokk([words[0], "0", text(&trace), "--memory", text(&file)]);
        ended(command.args([words[1], text(&twin)])).bad_use(&["same file"]);
        assert_eq!(bytes_of(&file), [7; 4096]);
    }
}

/// A file that the run makes is its own too.
#[test]
fn answers_in_the_place_of_a_memory_that_is_made() {
    let scratch = Scratch::new();
    let file = scratch.path("new.bin");
    let words = ["--memory", text(&file), "--answers", text(&file)];
    run(&Made::of(PART), &[0x01, 0x19], &words).bad_use(&["same file"]);
    assert_eq!(scratch.names(), [""; 0]);
}

/// If the report cannot be printed the memory is new all the same, and the sentence tells of it.
#[test]
fn a_report_that_cannot_be_printed() {
    let (scratch, file) = sevens();
    let full = File::options().write(true).open("/dev/full").unwrap();
    let mut command = run_command(&Made::of(PART), &["--memory", text(&file)]);
    command.stdout(Stdio::from(full)).stderr(Stdio::piped());
    let told = by_own_outputs(&mut command, &storing(1));
    told.with(2).says(&["report", "memory", "replaced"]);
    assert_eq!(bytes_of(&file), stored(1));
    assert_eq!(scratch.names(), ["chip.bin"]);
}

/// If no byte changed the sentence does not say that the file is another.
#[test]
fn a_report_on_an_unchanged_memory_that_cannot_be_printed() {
    let (_scratch, file) = sevens();
    let before = stamp_of(&file);
    let full = File::options().write(true).open("/dev/full").unwrap();
    let mut command = run_command(&Made::of(PART), &["--memory", text(&file)]);
    command.stdout(Stdio::from(full)).stderr(Stdio::piped());
    let told = by_own_outputs(&mut command, &[0x01, 0x19])
        .with(2)
        .says(&["report"]);
    assert_eq!(stamp_of(&file), before);
    assert!(!told.err.contains("replaced"), "{told:#?}");
}

/// A reader that has gone is no fault, and no reason to panic.
#[test]
fn a_report_that_nobody_reads() {
    let (_scratch, file) = sevens();
    let (reader, writer) = std::io::pipe().unwrap();
    drop(reader);
    let mut command = run_command(&Made::of(PART), &["--memory", text(&file)]);
    command.stdout(writer).stderr(Stdio::piped());
    by_own_outputs(&mut command, &storing(1)).well();
    assert_eq!(bytes_of(&file), stored(1));
}

/// Where standard output has the answers the report goes to standard error.
#[test]
fn answers_on_standard_output() {
    let (_scratch, file) = sevens();
    let made = Made::with_memory(PART, vec![7; 4096]);
    let after = played(&made, &storing(1), u64::MAX);
    let told = run_on(&file, &storing(1), &["--answers", "-"]).with(0);
    assert_eq!(told.out.as_bytes(), after.answers_file());
    let report = Ended {
        out: told.err,
        err: String::new(),
        status: told.status,
    };
    agrees(report, &made, &storing(1), &after);
    assert_eq!(bytes_of(&file), stored(1));
}

fn by_own_outputs(command: &mut Command, input: &[u8]) -> Ended {
    let mut running = Running::with_own(command);
    std::io::Write::write_all(running.input.as_mut().unwrap(), input).unwrap();
    running.end()
}

/// Bytes of a memory file of another length stay, whatever the part.
#[test]
fn a_file_of_another_parts_length() {
    let lengths = |part: Part| {
        [
            0,
            part.size() / 2,
            part.size() - 1,
            part.size() + 1,
            2 * part.size(),
        ]
    };
    let cases = Part::ALL
        .into_iter()
        .flat_map(|part| lengths(part).map(|length| (part, length)));
    for (part, length) in cases {
        let scratch = Scratch::new();
        let file = scratch.file("chip.bin", vec![3; length]);
        let before = stamp_of(&file);
        run(&Made::of(part), &[], &["--memory", text(&file)]).bad_use(&["chip.bin"]);
        assert_eq!(stamp_of(&file), before);
        assert_eq!(scratch.names(), ["chip.bin"]);
    }
}

/// Names that hold blanks, letters of other tongues and no letters at all are names.
#[test]
fn names_of_any_kind() {
    use std::os::unix::ffi::OsStrExt;
    let scratch = Scratch::new();
    for name in [
        &b"a b.bin"[..],
        "größe.bin".as_bytes(),
        b"\xff\xfe.bin",
        b"-",
        b"0",
    ] {
        let path = scratch.folder().join(std::ffi::OsStr::from_bytes(name));
        let mut command = sildrokk(["run", "0", "-", "--memory"]);
        fed(command.arg(&path), &storing(1)).well();
        assert_eq!(bytes_of(&path)[0x123], 1);
    }
}

/// A memory file and an answers file and a trace, all from the same folder and in one run.
#[test]
fn all_at_once() {
    let (scratch, file) = sevens();
    let made = Made::with_memory(PART, vec![7; 4096]);
    let trace = scratch.file("story.trace", storing(9));
    let answers = scratch.path("answers.txt");
    let words = [
        "run",
        "0",
        text(&trace),
        "--memory",
        text(&file),
        "--answers",
        text(&answers),
    ];
    let after = played(&made, &storing(9), u64::MAX);
    agrees(ended(&mut sildrokk(words)), &made, &storing(9), &after);
    assert_eq!(bytes_of(&answers), after.answers_file());
    assert_eq!(scratch.names(), ["answers.txt", "chip.bin", "story.trace"]);
}
