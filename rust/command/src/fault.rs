//! What keeps the command from its work, as one sentence for the person who gave it.

use std::fmt;

/// Bad use, or a file that cannot be used: exit status 2.
#[derive(Debug)]
pub struct Fault(String);

impl Fault {
    pub fn new(sentence: impl Into<String>) -> Fault {
        Fault(sentence.into())
    }

    /// For `map_err`: what was to be done, and why the system did not do it.
    pub fn because(what: impl fmt::Display) -> impl FnOnce(std::io::Error) -> Fault {
        let what = what.to_string();
        move |error| Fault(format!("{what}: {}", reason(&error)))
    }
}

/// The system's reason without Rust's number behind it.
fn reason(error: &std::io::Error) -> String {
    let text = error.to_string();
    match text.split_once(" (os error") {
        Some((words, _)) => words.to_string(),
        None => text,
    }
}

impl fmt::Display for Fault {
    fn fmt(&self, to: &mut fmt::Formatter<'_>) -> fmt::Result {
        to.write_str(&self.0)
    }
}
