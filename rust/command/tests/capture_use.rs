//! `capture`: what it cannot use is named in one sentence, and gives status 2.

mod common;

use common::command::{ended, sildrokk, Ended};
use common::report::Report;
use common::scratch::{names_in, text, Scratch};
use common::vcd::Capture;
use std::os::unix::fs::PermissionsExt;
use std::path::Path;
use std::process::Command;

const MAP: &str = "cs=D0,sck=D1,si=D2,wp=high,hold=high";

/// A capture of four channels, `D0` to `D3`.
fn bench() -> Scratch {
    let mut capture = Capture::of(&["D0", "D1", "D2", "D3"]);
    capture.samples = vec![vec![true, false, false, false], vec![false; 4]];
    let scratch = Scratch::new();
    scratch.file("a.vcd", capture.vcd());
    scratch
}

fn command(scratch: &Scratch, words: &[&str]) -> Command {
    let mut command = sildrokk(["capture"]);
    command.args(words).current_dir(scratch.folder());
    command
}

fn told(scratch: &Scratch, words: &[&str]) -> Ended {
    ended(&mut command(scratch, words))
}

/// The bench itself is well: what follows differs from it in one word.
#[test]
fn the_bench_is_well() {
    let scratch = bench();
    told(&scratch, &["0", "a.vcd", "-o", "a.trace", "--map", MAP]).well();
    assert_eq!(scratch.names(), ["a.trace", "a.vcd"]);
}

/// Each a map, and what the sentence must name.
const BAD_MAPS: [(&str, &str); 11] = [
    ("cs=D0,sck=D1,si=D2,wp=high", "hold"),
    ("sck=D1,si=D2,wp=high,hold=high", "cs"),
    ("cs=D0,sck=D9,si=D2,wp=high,hold=high", "D9"),
    ("cs=d0,sck=D1,si=D2,wp=high,hold=high", "d0"),
    ("cs=D0,sck=D1,si=D2,wp=high,hold=high,so=SO", "SO"),
    ("cs=D0,sck=D1,si=D2,wp=high,hold=high,power=VCC", "VCC"),
    ("cs=D0,sck=D1,si=D2,wp=high,hold=high,clk=D3", "clk"),
    ("cs=D0,sck=D1,si=D2,wp=high,hold=high,scl=D3", "scl"),
    ("cs=D0,sck=D1,si=D2,wp=high,hold=high,out=D3", "out"),
    ("cs=D0,sck=D1,si=D2,wp=high,hold=high,cs=D3", "cs"),
    ("cs=D0,sck=D1,si=D2,wp=high,hold", "hold"),
];

#[test]
fn bad_maps() {
    for (map, name) in BAD_MAPS {
        println!("{map}"); // shown if it fails
        let scratch = bench();
        told(&scratch, &["0", "a.vcd", "-o", "a.trace", "--map", map]).bad_use(&[name]);
        assert_eq!(scratch.names(), ["a.vcd"], "no trace is made");
    }
}

/// A channel without a name: which wire has none is told.
#[test]
fn a_channel_without_a_name() {
    let map = "cs=D0,sck=,si=D2,wp=high,hold=high";
    told(&bench(), &["0", "a.vcd", "-o", "a.trace", "--map", map]).bad_use(&["sck"]);
}

/// The wires of the other bus are none of the part's.
#[test]
fn a_map_of_the_other_bus() {
    let scratch = bench();
    told(&scratch, &["3", "a.vcd", "-o", "a.trace", "--map", MAP]).bad_words("cs");
    let twice = [
        "3",
        "a.vcd",
        "-o",
        "a.trace",
        "--map",
        "scl=D0,sda=D1",
        "--map",
        "wp=low,sda=D2",
    ];
    told(&scratch, &twice).bad_words("sda");
    let missing = [
        "4",
        "a.vcd",
        "-o",
        "a.trace",
        "--map",
        "scl=D0,wp=low,out=D1",
    ];
    told(&scratch, &missing).bad_words("sda");
}

/// Files that are none, that may not be read, or that are no capture.
#[test]
fn bad_files() {
    let scratch = bench();
    scratch.file("empty.vcd", "");
    scratch.file("text.vcd", "this is no capture\n");
    scratch.file("text.sr", "this is no capture\n");
    scratch.file("noise.bin", common::random::Random::of(80).bytes(1000));
    scratch.file(
        "head.vcd",
        "$timescale 1 us $end\n$var wire 1 ! D0 $end\n$enddefinitions $end\n",
    );
    std::fs::create_dir(scratch.path("folder")).unwrap();
    for name in [
        "none.vcd",
        "folder",
        "empty.vcd",
        "text.vcd",
        "text.sr",
        "noise.bin",
        "head.vcd",
    ] {
        println!("{name}");
        told(
            &scratch,
            &[&["0", name, "-o", "a.trace"][..], &["--map", MAP]].concat(),
        )
        .bad_use(&[name]);
        assert!(
            !scratch.path("a.trace").exists(),
            "{name}: no trace is made"
        );
    }
}

/// A file that may not be read; root may, so the command is run without that right.
#[test]
fn a_file_that_may_not_be_read() {
    let scratch = bench();
    std::fs::set_permissions(
        scratch.path("a.vcd"),
        std::fs::Permissions::from_mode(0o000),
    )
    .unwrap();
    let mut command = Command::new("setpriv");
    command.args([
        "--bounding-set=-all",
        "--inh-caps=-all",
        env!("CARGO_BIN_EXE_sildrokk"),
    ]);
    command.args(["capture", "0", "a.vcd", "-o", "a.trace", "--map", MAP]);
    ended(command.current_dir(scratch.folder())).bad_use(&["a.vcd"]);
    assert_eq!(scratch.names(), ["a.vcd"]);
}

/// What sigrok-cli does not know behind -I.
#[test]
fn bad_formats() {
    let scratch = bench();
    for format in ["nonsense", "csv"] {
        println!("{format}");
        let words = [
            "0", "a.vcd", "-o", "a.trace", "--map", MAP, "--format", format,
        ];
        told(&scratch, &words).bad_use(&[]);
        assert_eq!(scratch.names(), ["a.vcd"]);
    }
}

/// sigrok-cli is looked for on the path; a path without it is told.
#[test]
fn no_sigrok_cli() {
    let scratch = bench();
    let mut command = command(&scratch, &["0", "a.vcd", "-o", "a.trace", "--map", MAP]);
    ended(command.env("PATH", scratch.folder())).bad_use(&["sigrok-cli"]);
    assert_eq!(scratch.names(), ["a.vcd"]);
}

#[test]
fn a_trace_that_cannot_be_written() {
    let scratch = bench();
    for to in ["/dev/full", "none/a.trace", "."] {
        println!("{to}");
        told(&scratch, &["0", "a.vcd", "-o", to, "--map", MAP])
            .with(2)
            .says(&[to]);
    }
    assert_eq!(scratch.names(), ["a.vcd"]);
}

/// Numbers that the part cannot have.
#[test]
fn bad_numbers() {
    let scratch = bench();
    let map = "scl=D0,sda=D1,wp=low,out=D1";
    for (part, option, number) in [
        ("3", "--pins", "8"),
        ("4", "--pins", "4"),
        ("3", "--pins", "x"),
        ("3", "--start", "0x2000"),
        ("4", "--start", "131072"),
        ("3", "--start", "x"),
    ] {
        println!("{part} {option} {number}");
        let words = [part, "a.vcd", "-o", "a.trace", "--map", map, option, number];
        told(&scratch, &words).bad_words(option.trim_start_matches('-'));
        assert_eq!(scratch.names(), ["a.vcd"]);
    }
}

/// The name of a capture is a name, whatever it begins with or holds.
#[test]
fn names_of_any_kind() {
    let scratch = bench();
    for name in ["a b.vcd", "größe.vcd", "-i.vcd", "a:b.vcd", "a=b.vcd"] {
        println!("{name}");
        std::fs::copy(scratch.path("a.vcd"), scratch.path(name)).unwrap();
        let path = Path::new(".").join(name);
        told(&scratch, &["0", text(&path), "-o", "a.trace", "--map", MAP]).well();
    }
}

/// Nothing stays in the folder for temporary files, whether the capture could be used or not.
#[test]
fn no_temporary_file_stays() {
    let scratch = bench();
    scratch.file("text.vcd", "this is no capture\n");
    let temporary = scratch.path("temporary");
    std::fs::create_dir(&temporary).unwrap();
    for (file, map, status) in [
        ("a.vcd", MAP, 0),
        ("text.vcd", MAP, 2),
        ("a.vcd", "cs=D9", 2),
    ] {
        let mut command = command(&scratch, &["0", file, "-o", "a.trace", "--map", map]);
        ended(command.env("TMPDIR", &temporary)).with(status);
        assert_eq!(names_in(&temporary), [""; 0], "{file} {map}");
    }
}

/// A sigrok-cli of the test's own, which does this in the place of the true one, `$cli`.
fn with_sigrok_cli(scratch: &Scratch, body: &str) -> Ended {
    let folder = scratch.path("bin");
    std::fs::create_dir_all(&folder).unwrap();
    let path = std::env::var("PATH").expect("a path");
    let found = std::env::split_paths(&path)
        .map(|it| it.join("sigrok-cli"))
        .find(|it| it.exists());
    let cli = found.expect("sigrok-cli");
    let script = format!("#!/bin/sh\ncli={}\n{body}\n", text(&cli));
    let own = scratch.file("bin/sigrok-cli", script);
    std::fs::set_permissions(own, std::fs::Permissions::from_mode(0o755)).unwrap();
    let mut command = command(scratch, &["0", "a.vcd", "-o", "a.trace", "--map", MAP]);
    ended(command.env("PATH", format!("{}:{path}", text(&folder))))
}

/// sigrok-cli that fails, is killed, or says nothing is told as such; one that does its work is well.
#[test]
fn a_sigrok_cli_that_fails() {
    let scratch = bench();
    for body in ["exit 1", "kill -9 $$", "true", "echo nonsense"] {
        println!("{body}");
        with_sigrok_cli(&scratch, body).bad_use(&["a.vcd"]);
        assert_eq!(scratch.names(), ["a.vcd", "bin"]);
    }
    with_sigrok_cli(&scratch, "exec $cli \"$@\"").well();
}

/// A capture that sigrok-cli reads only in part is refused, though it says that all is well.
#[test]
fn a_capture_that_is_read_in_part() {
    let scratch = bench();
    let mut capture = Capture::of(&["D0", "D1", "D2", "D3"]);
    capture.samples = (0..1000)
        .map(|at| vec![true, at % 2 == 0, false, false])
        .collect();
    scratch.file("a.vcd", capture.vcd());
    let samples = "*binary*|*bits*|*hex*";
    let body =
        format!("case \"$*\" in {samples}) $cli \"$@\" | head -c 700 ;; *) $cli \"$@\" ;; esac");
    with_sigrok_cli(&scratch, &body).bad_use(&["sigrok-cli"]);
    with_sigrok_cli(&scratch, "$cli \"$@\"").well();
}

/// Blanks may stand behind the commas of a map.
#[test]
fn blanks_in_a_map() {
    let scratch = bench();
    let map = "cs=D0, sck=D1,  si=D2, wp=high, hold=high";
    told(&scratch, &["0", "a.vcd", "-o", "a.trace", "--map", map]).well();
    let with = std::fs::read(scratch.path("a.trace")).unwrap();
    told(&scratch, &["0", "a.vcd", "-o", "a.trace", "--map", MAP]).well();
    assert_eq!(std::fs::read(scratch.path("a.trace")).unwrap(), with);
}

/// Analog channels are left out, and cannot be mapped.
#[test]
fn analog_channels() {
    let scratch = bench();
    let vcd = "$timescale 1 us $end\n$var real 64 r VCC $end\n$var wire 1 ! SCL $end\n\
        $var wire 1 % SDA $end\n$enddefinitions $end\n#0\nr3.3 r\n1!\n1%\n#2\n0%\nr3.1 r\n#4\n0!\n#5\n";
    scratch.file("analog.vcd", vcd);
    let words = ["3", "analog.vcd", "-o", "a.trace", "--map"];
    let done = told(
        &scratch,
        &[&words[..], &["scl=SCL,sda=SDA,wp=low"]].concat(),
    )
    .well();
    assert_eq!(Report::of(&done.out).numbers("read"), [5, 2]);
    let trace = std::fs::read(scratch.path("a.trace")).unwrap();
    assert_eq!(trace, [0x02, 0x03, 0, 0, 0, 0x04, 0x01, 0x04, 0x00]);
    let map = "scl=SCL,sda=SDA,wp=low,power=VCC";
    told(&scratch, &[&words[..], &[map]].concat()).bad_use(&["VCC"]);
}

/// Where standard output has the trace the report goes to standard error.
#[test]
fn a_trace_on_standard_output() {
    let scratch = bench();
    let done = told(&scratch, &["0", "a.vcd", "-o", "-", "--map", MAP]).with(0);
    assert_eq!(done.out.as_bytes(), [0x01, 0x19, 0x04, 0x18]);
    assert_eq!(Report::of(&done.err).numbers("trace"), [4]);
}
