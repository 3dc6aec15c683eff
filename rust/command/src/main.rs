//! The command `sildrokk`. docs/COMMAND.md tells a person what it does.

#![forbid(unsafe_code)]

mod answers;
mod capture;
mod dump;
mod fault;
mod identity;
mod memory_file;
mod options;
mod output;
mod parts;
mod play;
mod progress;
mod report;
mod run;
mod source;
mod vcd;
mod warnings;
mod wave;

use clap::{CommandFactory, Parser};
use fault::Fault;
use options::{Command, Options};
use std::ffi::OsString;
use std::io::{self, IsTerminal, Write};
use std::process::ExitCode;

/// An event was refused.
const REFUSED: u8 = 1;
/// Bad use; clap's own refusals have the same status.
const BAD_USE: u8 = 2;

fn main() -> ExitCode {
    let colours = std::env::var_os("NO_COLOR").is_none();
    console::set_colors_enabled(colours && io::stdout().is_terminal());
    console::set_colors_enabled_stderr(colours && io::stderr().is_terminal());
    let options = match Options::try_parse_from(words()) {
        Ok(options) => options,
        Err(words) => return told(&words),
    };
    let done = match options.command {
        Command::Parts => printed(&parts::table()),
        Command::Run(options) => run::run(&options),
        Command::Capture(options) => capture::capture(&options),
        Command::Wave(options) => wave::wave(&options),
        Command::Completion { shell } => {
            let mut text = Vec::new();
            clap_complete::generate(shell, &mut Options::command(), "sildrokk", &mut text);
            printed(&String::from_utf8_lossy(&text))
        }
    };
    match done {
        Ok(true) => ExitCode::SUCCESS,
        Ok(false) => ExitCode::from(REFUSED),
        Err(fault) => bad_use(&fault),
    }
}

fn bad_use(fault: &Fault) -> ExitCode {
    let _ = writeln!(io::stderr(), "sildrokk: {fault}");
    ExitCode::from(BAD_USE)
}

/// The words of the command line. A map may be written with blanks: one of its words that ends in a comma
/// goes on in the next.
fn words() -> Vec<OsString> {
    let goes_on = |word: &[u8]| word.ends_with(b",") && word.contains(&b'=');
    let mut words: Vec<OsString> = Vec::new();
    for word in std::env::args_os() {
        match words.last_mut() {
            Some(last) if goes_on(last.as_encoded_bytes()) => last.push(word),
            _ => words.push(word),
        }
    }
    words
}

/// Help, a version or bad use, in clap's words.
fn told(words: &clap::Error) -> ExitCode {
    match words.print() {
        Err(error) => bad_use(&Fault::because("the help cannot be printed")(error)),
        Ok(()) if words.use_stderr() => ExitCode::from(BAD_USE),
        Ok(()) => ExitCode::SUCCESS,
    }
}

/// Always true: nothing was refused.
fn printed(text: &str) -> Result<bool, Fault> {
    report::printed(&mut io::stdout().lock(), text)?;
    Ok(true)
}
