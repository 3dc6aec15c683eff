//! Gives vectors of document 01 the numbers and offsets of ask 1: `renumber [FILE]`, or from standard
//! input. The new text goes to standard output, and which lines changed to standard error. A line
//! that says neither the old nor the new is told, and nothing is written.

use std::io::Read;
use std::process::ExitCode;

fn main() -> ExitCode {
    let words: Vec<String> = std::env::args().skip(1).collect();
    let text = match &words[..] {
        [] => from_input(),
        [file] => std::fs::read_to_string(file),
        _ => {
            eprintln!("usage: renumber [FILE]");
            return ExitCode::from(2);
        }
    };
    let text = text.map_err(|error| error.to_string());
    match text.and_then(|text| drive::renumber::renumbered(&text)) {
        Ok(renumbered) => {
            print!("{}", renumbered.text);
            eprintln!("{renumbered}");
            ExitCode::SUCCESS
        }
        Err(why) => {
            eprintln!("{why}");
            ExitCode::FAILURE
        }
    }
}

fn from_input() -> std::io::Result<String> {
    let mut text = String::new();
    std::io::stdin().read_to_string(&mut text)?;
    Ok(text)
}
