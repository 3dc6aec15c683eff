//! sigrok-cli, as a second opinion on captures: it turns them into other formats and decodes the buses.

use super::command::ended;
use std::path::Path;
use std::process::Command;

/// What it printed. It gives status 0 on many errors, so the tests look at what came of it.
pub fn sigrok(words: &[&str]) -> String {
    let done = ended(Command::new("sigrok-cli").args(words));
    assert_eq!(done.code(), 0, "sigrok-cli {words:?}: {done:#?}");
    assert_eq!(done.err, "", "sigrok-cli {words:?}");
    done.out
}

/// Turns a capture into one of another format.
pub fn converted(from: &Path, to: &Path, output: &str) {
    let (from, to) = (super::scratch::text(from), super::scratch::text(to));
    sigrok(&["-i", from, "-O", output, "-o", to]);
    assert!(Path::new(to).is_file(), "sigrok-cli wrote no {to}");
}

/// The bytes that a decoder shows of a file: two digits behind the last blank of a line. Other lines, as
/// `i2c-1: Write`, have none.
pub fn decoded(file: &Path, decoder: &str, class: &str) -> Vec<u8> {
    let file = super::scratch::text(file);
    let shown = sigrok(&["-i", file, "-P", decoder, "-A", class]);
    let words = shown.lines().filter_map(|line| line.rsplit(' ').next());
    let bytes = words.filter(|word| word.len() == 2);
    bytes
        .filter_map(|word| u8::from_str_radix(word, 16).ok())
        .collect()
}
