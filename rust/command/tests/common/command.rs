//! Running the binary: always with a bound on how long it may take, and with all that it printed.

use std::ffi::OsStr;
use std::io::{Read, Write};
use std::process::{Child, ChildStdin, Command, ExitStatus, Stdio};
use std::thread::{self, JoinHandle};
use std::time::{Duration, Instant};

/// No run of a test takes a tenth of this; one that does hangs.
const PATIENCE: Duration = Duration::from_secs(100);

/// The command with these words.
pub fn sildrokk<I, S>(words: I) -> Command
where
    I: IntoIterator<Item = S>,
    S: AsRef<OsStr>,
{
    let mut command = Command::new(env!("CARGO_BIN_EXE_sildrokk"));
    command.args(words);
    command
}

/// How a process ended and what it printed.
#[derive(Debug)]
pub struct Ended {
    pub status: ExitStatus,
    pub out: String,
    pub err: String,
}

impl Ended {
    /// The exit status; a signal is a failure of the test.
    pub fn code(&self) -> i32 {
        let code = self.status.code();
        code.unwrap_or_else(|| panic!("ended by a signal: {self:#?}"))
    }

    /// That it ended with this status, and printed no escape codes, since no test but those of the
    /// terminal gives it one.
    #[track_caller]
    pub fn with(self, code: i32) -> Ended {
        assert_eq!(self.code(), code, "{self:#?}");
        assert!(
            !self.out.contains('\x1b') && !self.err.contains('\x1b'),
            "{self:#?}"
        );
        self
    }

    /// That it ended well, with nothing on standard error.
    #[track_caller]
    pub fn well(self) -> Ended {
        let ended = self.with(0);
        assert_eq!(ended.err, "", "{ended:#?}");
        ended
    }

    /// That it was bad use: status 2, nothing on standard output, and one line on standard error that
    /// names all of these.
    #[track_caller]
    pub fn bad_use(self, names: &[&str]) -> Ended {
        let ended = self.with(2);
        assert_eq!(ended.out, "", "{ended:#?}");
        ended.says(names)
    }

    /// That the words of the command line are bad use: status 2, nothing on standard output, and standard
    /// error names this.
    #[track_caller]
    pub fn bad_words(self, name: &str) -> Ended {
        let ended = self.with(2);
        assert_eq!(ended.out, "", "{ended:#?}");
        let named = ended.err.to_lowercase().contains(&name.to_lowercase());
        assert!(
            named && !ended.err.contains("panicked"),
            "no {name}: {ended:#?}"
        );
        ended
    }

    /// That standard error is one line, and names all of these.
    #[track_caller]
    pub fn says(self, names: &[&str]) -> Ended {
        assert_eq!(
            self.err.trim_end().lines().count(),
            1,
            "not one sentence: {self:#?}"
        );
        let said = self.err.to_lowercase();
        let missing = names
            .iter()
            .find(|name| !said.contains(&name.to_lowercase()));
        assert_eq!(missing, None, "not named: {self:#?}");
        self
    }
}

/// Runs a command to its end with this on its standard input.
pub fn fed(command: &mut Command, input: &[u8]) -> Ended {
    fed_by(command, |mut pipe| {
        // A command that needs no more of its input may end before it has taken all.
        let _ = pipe.write_all(input);
    })
}

/// Runs a command to its end without input.
pub fn ended(command: &mut Command) -> Ended {
    fed(command, &[])
}

/// Runs a command to its end while `feed` writes to its standard input.
pub fn fed_by(command: &mut Command, feed: impl FnOnce(ChildStdin) + Send) -> Ended {
    let mut running = Running::of(command);
    let pipe = running.input.take().expect("a pipe");
    thread::scope(|scope| {
        let feeder = scope.spawn(move || feed(pipe));
        let ended = running.end();
        feeder.join().expect("the feeder");
        ended
    })
}

/// A command at work. `input` is its standard input, until it is dropped.
pub struct Running {
    pub child: Child,
    pub input: Option<ChildStdin>,
    out: Option<JoinHandle<String>>,
    err: Option<JoinHandle<String>>,
}

impl Running {
    pub fn of(command: &mut Command) -> Running {
        command
            .stdin(Stdio::piped())
            .stdout(Stdio::piped())
            .stderr(Stdio::piped());
        Running::with_own(command)
    }

    /// The same, but with the outputs that the command was given: only pipes are read.
    pub fn with_own(command: &mut Command) -> Running {
        command.stdin(Stdio::piped());
        let mut child = command
            .spawn()
            .unwrap_or_else(|error| panic!("{command:?}: {error}"));
        Running {
            input: child.stdin.take(),
            out: child.stdout.take().map(text_of),
            err: child.stderr.take().map(text_of),
            child,
        }
    }

    /// Closes its input and waits for its end.
    pub fn end(mut self) -> Ended {
        drop(self.input.take());
        let status = self.waited();
        let text = |from: Option<JoinHandle<String>>| {
            from.map_or(String::new(), |it| it.join().expect("what it printed"))
        };
        Ended {
            status,
            out: text(self.out.take()),
            err: text(self.err.take()),
        }
    }

    /// Waits for its end with the input as it is.
    #[track_caller]
    pub fn waited(&mut self) -> ExitStatus {
        self.waited_within(PATIENCE)
    }

    /// The same where a command that waits for something is the fault that is looked for.
    #[track_caller]
    pub fn waited_within(&mut self, patience: Duration) -> ExitStatus {
        let begun = Instant::now();
        loop {
            if let Some(status) = self.child.try_wait().expect("its status") {
                return status;
            }
            if begun.elapsed() > patience {
                self.child.kill().expect("to end what hangs");
                panic!("did not end within {patience:?}");
            }
            thread::sleep(Duration::from_micros(100));
        }
    }
}

/// Reads a pipe to its end, beside the test.
fn text_of(mut pipe: impl Read + Send + 'static) -> JoinHandle<String> {
    thread::spawn(move || {
        let mut bytes = Vec::new();
        pipe.read_to_end(&mut bytes).expect("its output");
        String::from_utf8(bytes).expect("text")
    })
}

/// Waits until `holds`, and fails the test if that does not come about.
#[track_caller]
pub fn wait_until(what: &str, mut holds: impl FnMut() -> bool) {
    let begun = Instant::now();
    while !holds() {
        assert!(begun.elapsed() < PATIENCE, "waited in vain until {what}");
        thread::sleep(Duration::from_millis(1));
    }
}
