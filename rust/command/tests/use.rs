//! Words of the command line: help, version, completion, and what is bad use.

mod common;

use common::command::{ended, fed, sildrokk, Running};
use common::scratch::{text, Scratch};
use std::fs::File;
use std::process::Stdio;

const COMMANDS: [&str; 5] = ["parts", "run", "capture", "wave", "completion"];

/// The options of each command, in the order of `COMMANDS`.
const OPTIONS: [&[&str]; 5] = [
    &[],
    &[
        "PART",
        "TRACE",
        "--memory",
        "--pins",
        "--bits",
        "--quota",
        "--answers",
    ],
    &[
        "PART", "FILE", "--map", "-o", "--format", "--pins", "--start",
    ],
    &[
        "PART", "TRACE", "-o", "--memory", "--pins", "--bits", "--quota",
    ],
    &["SHELL"],
];

#[test]
fn help_names_every_command() {
    let told = ended(&mut sildrokk(["--help"])).well().out;
    let missing = COMMANDS.iter().find(|name| !told.contains(*name));
    assert_eq!(missing, None, "{told}");
}

#[test]
fn help_of_each_names_its_options() {
    for (command, options) in COMMANDS.into_iter().zip(OPTIONS) {
        let told = ended(&mut sildrokk([command, "--help"])).well().out;
        let missing = options.iter().find(|option| !told.contains(*option));
        assert_eq!(missing, None, "{command}: {told}");
    }
}

#[test]
fn the_version() {
    let told = ended(&mut sildrokk(["--version"])).well().out;
    assert_eq!(told, concat!("sildrokk ", env!("CARGO_PKG_VERSION"), "\n"));
}

/// What completes is the command's name, and every one of its words.
#[test]
fn completion_for_five_shells() {
    for shell in ["bash", "fish", "zsh", "elvish", "powershell"] {
        let told = ended(&mut sildrokk(["completion", shell])).well().out;
        let words = ["sildrokk", "quota", "answers", "capture", "format"];
        let missing = words.iter().find(|word| !told.contains(*word));
        assert_eq!(missing, None, "{shell}: {told}");
    }
    ended(&mut sildrokk(["completion", "tcsh"])).bad_words("tcsh");
    ended(&mut sildrokk(["completion"])).bad_words("shell");
}

/// bash itself: it takes the text, and completes a word with it.
#[test]
fn bash_completes() {
    let told = ended(&mut sildrokk(["completion", "bash"])).well().out;
    let script = format!(
        "{told}
         COMP_WORDS=(sildrokk run --qu); COMP_CWORD=2
         _sildrokk sildrokk --qu run
         echo \"${{COMPREPLY[@]}}\""
    );
    let mut bash = std::process::Command::new("bash");
    let done = fed(
        bash.args(["--norc", "--noprofile", "-s"]),
        script.as_bytes(),
    )
    .well();
    assert_eq!(done.out.trim(), "--quota");
}

/// Each line: words of bad use, and what the sentence must name.
const BAD: [(&[&str], &str); 24] = [
    (&["rum", "0", "-"], "rum"),
    (&["run"], "part"),
    (&["run", "0"], "trace"),
    (&["run", "5", "-"], "5"),
    (&["run", "MR45V032", "-"], "MR45V032"),
    (&["run", "", "-"], "part"),
    (&["run", "0", "-", "more"], "more"),
    (&["run", "0", "-", "--quato", "1"], "--quato"),
    (&["run", "0", "-", "--quota"], "--quota"),
    (&["run", "0", "-", "--quota", "x"], "quota"),
    (&["run", "0", "-", "--quota", ""], "quota"),
    (&["run", "0", "-", "--quota", "-1"], "-1"),
    (&["run", "0", "-", "--quota", "1.5"], "1.5"),
    (&["run", "0", "-", "--quota", "0x"], "0x"),
    (&["run", "0", "-", "--quota", "1f"], "1f"),
    (
        &["run", "0", "-", "--quota", "18446744073709551616"],
        "18446744073709551616",
    ),
    (&["run", "3", "-", "--pins", "9"], "pins"),
    (&["run", "1", "-", "--bits", "8"], "bits"),
    (&["run", "1", "-", "--bits", "4294967297"], "bits"),
    (&["run", "0", "-", "--quota", "1", "--quota", "2"], "quota"),
    (&["wave", "0", "-"], "-o"),
    (
        &["wave", "3", "-", "--pins", "8", "-o", "/dev/null"],
        "pins",
    ),
    (&["wave", "6", "-", "-o", "/dev/null"], "6"),
    (&["capture", "0", "none.sr", "-o", "/dev/null"], "--map"),
];

#[test]
fn bad_use() {
    for (words, name) in BAD {
        println!("{words:?}"); // shown if it fails
        ended(&mut sildrokk(words)).bad_words(name);
    }
}

/// A number is digits, and a sign is none.
#[test]
fn a_sign_is_no_digit() {
    for number in ["+1", "0x+1", "-0", "0x-1"] {
        ended(&mut sildrokk(["run", "0", "-", "--quota", number])).bad_words(number);
    }
}

/// Without any word it is bad use too: it tells how to use it, on standard error.
#[test]
fn without_a_word() {
    let done = ended(&mut sildrokk([""; 0])).with(2);
    assert_eq!(done.out, "");
    assert!(done.err.contains("sildrokk"), "{done:#?}");
}

/// Bad use touches nothing: neither a memory nor an answers file is made.
#[test]
fn bad_use_touches_nothing() {
    let scratch = Scratch::new();
    let (memory, answers) = (scratch.path("chip.bin"), scratch.path("answers.txt"));
    for bad in [
        &["--pins", "1"][..],
        &["--quota", "x"],
        &["--unknown"],
        &["--bits", "1"],
    ] {
        let mut command = sildrokk(["run", "0", "-", "--memory", text(&memory)]);
        let command = command.args(["--answers", text(&answers)]).args(bad);
        fed(command, &[0x01, 0x19]).bad_words(bad[0].trim_start_matches('-'));
        assert_eq!(scratch.names(), [""; 0], "{bad:?}");
    }
}

/// Words that are no text are bad use and no panic.
#[test]
fn words_that_are_no_text() {
    use std::os::unix::ffi::OsStrExt;
    let word = std::ffi::OsStr::from_bytes(b"\xff");
    let done = ended(sildrokk(["run"]).arg(word).arg("-")).with(2);
    assert!(
        !done.err.is_empty() && !done.err.contains("panicked"),
        "{done:#?}"
    );
}

/// What goes to standard output goes there whole, or it is told.
#[track_caller]
fn to_a_full_disk(words: &[&str]) {
    let full = File::options().write(true).open("/dev/full").unwrap();
    let mut command = sildrokk(words);
    command.stdout(full).stderr(Stdio::piped());
    Running::with_own(&mut command).end().with(2).says(&[]);
}

#[test]
fn an_output_that_cannot_be_written() {
    to_a_full_disk(&["parts"]);
    to_a_full_disk(&["completion", "bash"]);
}

#[test]
fn help_that_cannot_be_written() {
    to_a_full_disk(&["--help"]);
    to_a_full_disk(&["run", "--help"]);
    to_a_full_disk(&["--version"]);
}
