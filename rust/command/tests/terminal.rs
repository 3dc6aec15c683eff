//! Terminals: progress where standard error is one and the trace takes longer than a moment, colours
//! where standard output is one. script(1) gives the command a terminal of its own.

mod common;

use common::command::{ended, Running};
use common::scratch::{bytes_of, text, Scratch};
use std::fs::{self, File, OpenOptions};
use std::io::{Read, Write};
use std::path::Path;
use std::process::{Child, Command, Stdio};
use std::sync::atomic::{AtomicBool, Ordering};
use std::thread;
use std::time::{Duration, Instant};

/// What begins every code of a terminal.
const ESCAPE: u8 = 0x1b;

/// A line of a shell in which `$sildrokk` is the command, on a terminal.
fn on_terminal(line: &str, folder: &Path) -> Command {
    let mut command = Command::new("script");
    command.args(["--quiet", "--return", "--command", line, "/dev/null"]);
    command
        .env("sildrokk", env!("CARGO_BIN_EXE_sildrokk"))
        .current_dir(folder);
    command
        .env("TERM", "xterm-256color")
        .env_remove("NO_COLOR")
        .env("SHELL", "/bin/sh");
    command
}

/// A folder with a trace that has something of every line of the report.
fn bench() -> Scratch {
    let scratch = Scratch::new();
    let mut host = common::bus::Spi::on();
    host.store(&[0, 0], &[1]);
    host.events
        .extend([0x18, 0x10].map(sildrokk::trace::Event::Sample));
    host.off();
    scratch.file("story.trace", [host.trace(), vec![0xff]].concat());
    scratch
}

/// Whether there is a code that sets a colour, `ESC [ numbers m`.
fn coloured(text: &str) -> bool {
    let codes = text.split("\x1b[").skip(1);
    let end = |code: &str| {
        code.trim_start_matches(|it: char| it.is_ascii_digit() || it == ';')
            .chars()
            .next()
    };
    codes.into_iter().any(|code| end(code) == Some('m'))
}

/// Without its codes, and with a terminal's ends of lines, the report is the one that a file gets.
fn plain(text: &str) -> String {
    let mut parts = text.split("\x1b[");
    let first = parts.next().unwrap_or_default().to_string();
    let rest = parts.map(|part| part.split_once('m').map_or("", |(_, rest)| rest));
    (first + &rest.collect::<String>()).replace("\r\n", "\n")
}

const RUN: &str = "$sildrokk run 0 story.trace";

#[test]
fn a_report_on_a_terminal_has_colours() {
    let scratch = bench();
    let shown = ended(&mut on_terminal(RUN, scratch.folder()));
    assert_eq!(shown.code(), 1, "{shown:#?}");
    assert!(coloured(&shown.out), "{shown:#?}");
    let line = format!("{RUN} > report.txt");
    ended(&mut on_terminal(&line, scratch.folder()));
    assert_eq!(
        plain(&shown.out).into_bytes(),
        bytes_of(&scratch.path("report.txt"))
    );
}

/// Whatever it is set to.
#[test]
fn never_with_no_color() {
    let scratch = bench();
    for value in ["1", "0", ""] {
        let mut command = on_terminal(RUN, scratch.folder());
        let shown = ended(command.env("NO_COLOR", value));
        assert_eq!(shown.code(), 1);
        assert!(
            shown.out.contains("ended") && !shown.out.contains('\x1b'),
            "{shown:#?}"
        );
    }
}

/// What other programs take for a wish to have colours makes no terminal of a file.
#[test]
fn no_codes_by_force() {
    let scratch = bench();
    let mut command = common::command::sildrokk(["run", "0", text(&scratch.path("story.trace"))]);
    ended(command.env("CLICOLOR_FORCE", "1").env("CLICOLOR", "1")).with(1);
}

/// Only the output that is printed to counts: a file gets no codes, and neither does standard error.
#[test]
fn no_codes_in_a_file() {
    let scratch = bench();
    let line =
        format!("{RUN} > report.txt; $sildrokk run 9 - 2> said.txt; $sildrokk parts > parts.txt");
    ended(&mut on_terminal(&line, scratch.folder()));
    for name in ["report.txt", "said.txt", "parts.txt"] {
        let bytes = bytes_of(&scratch.path(name));
        assert!(!bytes.is_empty() && !bytes.contains(&ESCAPE), "{name}");
    }
}

/// Events without end, a piece at a time, until `enough`; then the pipe is closed.
fn feed(fifo: &Path, enough: &AtomicBool) {
    let mut pipe = OpenOptions::new().write(true).open(fifo).expect("the pipe");
    pipe.write_all(&[0x01, 0x19]).expect("a reader");
    let begun = Instant::now();
    while !enough.load(Ordering::Relaxed) && begun.elapsed() < Duration::from_secs(30) {
        pipe.write_all(&[0x04, 0x18, 0x04, 0x19].repeat(100))
            .expect("a reader");
        thread::sleep(Duration::from_millis(1));
    }
}

/// Reads what the terminal shows until its end, and tells as soon as anything is shown.
fn watch(child: &mut Child, shown: &AtomicBool) -> String {
    let mut pipe = child.stdout.take().expect("its output");
    let (mut bytes, mut piece) = (Vec::new(), [0; 4096]);
    loop {
        match pipe.read(&mut piece).expect("its output") {
            0 => return String::from_utf8(bytes).expect("text"),
            count => bytes.extend(&piece[..count]),
        }
        shown.store(true, Ordering::Relaxed);
    }
}

/// Plays events on a terminal until progress is shown; what was shown, and how long it took.
fn until_shown(line: &str, scratch: &Scratch) -> (String, Duration) {
    let (fifo, enough) = (scratch.path("fifo"), AtomicBool::new(false));
    let begun = Instant::now();
    let mut command = on_terminal(line, scratch.folder());
    let mut child = command
        .stdin(Stdio::null())
        .stdout(Stdio::piped())
        .spawn()
        .unwrap();
    let shown = thread::scope(|scope| {
        scope.spawn(|| feed(&fifo, &enough));
        watch(&mut child, &enough)
    });
    assert!(child.wait().unwrap().success(), "{shown:?}");
    (shown, begun.elapsed())
}

fn with_fifo() -> Scratch {
    let scratch = Scratch::new();
    ended(Command::new("mkfifo").arg(scratch.path("fifo"))).well();
    scratch
}

/// Progress goes to standard error, beside a report that goes elsewhere; and none is shown for as long,
/// and as long again, where standard error is a file.
#[test]
fn progress() {
    let scratch = with_fifo();
    let (shown, time) = until_shown("$sildrokk run 0 - < fifo > report.txt", &scratch);
    assert!(time < Duration::from_secs(25), "no progress in {time:?}");
    assert!(!shown.trim().is_empty(), "{shown:?}");
    let report = fs::read_to_string(scratch.path("report.txt")).unwrap();
    assert!(
        report.contains("ended     0") && !report.contains('\x1b'),
        "{report:?}"
    );

    let said = File::create(scratch.path("said.txt")).unwrap();
    let mut command = common::command::sildrokk(["run", "0", "-"]);
    let mut running = Running::with_own(command.stdout(Stdio::piped()).stderr(said));
    let mut pipe = running.input.take().unwrap();
    pipe.write_all(&[0x01, 0x19]).unwrap();
    let begun = Instant::now();
    while begun.elapsed() < 2 * time {
        pipe.write_all(&[0x04, 0x18, 0x04, 0x19].repeat(100))
            .unwrap();
        thread::sleep(Duration::from_millis(1));
    }
    drop(pipe);
    running.end().well();
    assert_eq!(bytes_of(&scratch.path("said.txt")), b"");
}

/// A trace that takes no longer than a moment is played without.
#[test]
fn no_progress_within_a_moment() {
    let scratch = bench();
    let line = format!("{RUN} > report.txt");
    let shown = ended(&mut on_terminal(&line, scratch.folder()));
    assert_eq!((shown.code(), shown.out.as_str()), (1, ""));
}

/// Nothing of the progress stays on the terminal behind the report: it is wiped before that.
#[test]
fn progress_is_gone_before_the_report() {
    let scratch = with_fifo();
    let (shown, _) = until_shown("$sildrokk run 0 - < fifo", &scratch);
    let report = shown.find("part").expect("a report");
    assert!(report > 0, "no progress: {shown:?}");
    assert_eq!(
        shown[report..].matches('\r').count(),
        shown[report..].matches("\r\n").count(),
        "{shown:?}"
    );
}

/// `wave` plays a trace too.
#[test]
fn progress_of_a_wave() {
    let scratch = with_fifo();
    let (shown, time) = until_shown(
        "$sildrokk wave 0 - -o run.vcd < fifo > report.txt",
        &scratch,
    );
    assert!(time < Duration::from_secs(25), "no progress in {time:?}");
    assert!(!shown.trim().is_empty(), "{shown:?}");
}
