//! `sildrokk parts`: the table of 'The five parts' in docs/RULES.md.

mod common;

use common::command::{ended, sildrokk};

/// Number, name, bus and bytes, as the table has them.
const TABLE: [[&str; 4]; 5] = [
    ["0", "MR45V032A", "SPI", "4,096"],
    ["1", "MR45V100A", "SPI", "131,072"],
    ["2", "MR45V200B", "SPI", "262,144"],
    ["3", "MR44V064B", "I2C", "8,192"],
    ["4", "MS85RC1MTY", "I2C", "131,072"],
];

#[test]
fn each_part_has_a_line() {
    let told = ended(&mut sildrokk(["parts"])).well().out;
    let lines: Vec<Vec<&str>> = told
        .lines()
        .map(|line| line.split_whitespace().collect())
        .collect();
    let line_of = |row: &[&str; 4]| {
        let has = |line: &&Vec<&str>| row.iter().all(|word| line.contains(word));
        lines.iter().filter(has).count()
    };
    let found: Vec<usize> = TABLE.iter().map(line_of).collect();
    assert_eq!(found, [1; 5], "{told}");
}

/// The lines that begin with a number are those of the parts.
#[test]
fn there_are_no_more() {
    let told = ended(&mut sildrokk(["parts"])).well().out;
    let numbered = told
        .lines()
        .filter(|line| line.starts_with(|letter: char| letter.is_ascii_digit()));
    let first = numbered.map(|line| line.split_whitespace().next().unwrap());
    assert!(first.eq(["0", "1", "2", "3", "4"]), "{told}");
}

/// It takes no other words.
#[test]
fn takes_no_word() {
    ended(&mut sildrokk(["parts", "3"])).bad_words("3");
}
