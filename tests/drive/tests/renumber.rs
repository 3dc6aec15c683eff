//! The command that gives vectors of document 01 the numbers and offsets of ask 1: lines written by
//! hand, and the committed vectors, which it leaves as they are and makes again from the old numbers.

use drive::field;
use drive::renumber::{renumbered, Change, Given};
use std::io::Write;
use std::process::{Command, Output, Stdio};
use twin::text::Line;
use twin::trace::after;

const BASE: &str = include_str!("../../vectors/base.txt");
const FIELDS: &str = include_str!("../../vectors/fields.txt");

/// Lines as they were and as they are to be, for each kind and each field.
const MADE_NEW: [[&str; 2]; 9] = [
    ["0 0 0 0120 6 0 0 - -", "0 0 0 0120 6 0 1 - -"],
    ["1 0 7 01190420 6 1 2 Z -", "1 0 7 01190420 6 1 3 Z -"],
    ["2 0 0 0119050303 6 1 2 Z -", "2 0 0 0119050303 11 1 3 Z -"],
    ["3 7 0 0208000000 6 0 0 - -", "3 7 0 0208000000 6 0 1 - -"],
    ["3 0 0 0203002000 6 0 0 - -", "3 0 0 0203002000 10 0 2 - -"],
    ["4 0 0 0203020000 6 0 0 - -", "4 0 0 0203020000 10 0 2 - -"],
    ["4 3 0 02ffffffff 6 0 0 - -", "4 3 0 02ffffffff 6 0 1 - -"],
    [
        "3 0 0 0203001fff040704080403 6 2 7 ZZ -",
        "3 0 0 0203001fff040704080403 6 2 8 ZZ -",
    ],
    [
        "4 0 0 020300000003020301ffff05ff 6 3 11 ZZZ 00123=77",
        "4 0 0 020300000003020301ffff05ff 11 3 12 ZZZ 00123=77",
    ],
];

/// Lines that have no bad field.
const LEFT: [&str; 7] = [
    "# 0 0 0 0120 6 0 0 - -  ",
    "0 0 0 - 0 0 0 - -",
    "0 0 0 ff 4 0 0 - -",
    "0 0 0 01 5 0 0 - -",
    "0 0 0 0418 7 0 0 - -",
    "0 0 0 01190119 8 1 2 Z -",
    "0 0 0 01190501 9 1 2 Z -",
];

/// Lines that say neither the old nor the new, and why.
const REFUSED: [[&str; 2]; 10] = [
    [
        "0 0 0 0119041f 6 1 2 Z -",
        "the event at 2 has no field out of range",
    ],
    [
        "3 0 0 0207001fff 6 0 0 - -",
        "the event at 0 has no field out of range",
    ],
    [
        "0 0 0 01190502 6 1 2 Z -",
        "the event at 2 has no field out of range",
    ],
    [
        "3 0 0 02ffffff 6 0 0 - -",
        "the event at 0 has no field out of range",
    ],
    [
        "0 0 0 02ffffffff 6 0 0 - -",
        "the event at 0 has no field out of range",
    ],
    ["0 0 0 0120 6 0 2 - -", "6 2, which is neither 6 0 nor 6 1"],
    [
        "0 0 0 0120 11 0 1 - -",
        "11 1, which is neither 6 0 nor 6 1",
    ],
    ["0 0 0 0119 6 1 2 Z -", "no event is left to be refused"],
    ["5 0 0 0120 6 0 0 - -", "no such part"],
    ["0 0 0  0120 6 0 0 - -", "not a vector"],
];

#[test]
fn bad_fields_are_made_new() {
    for [old, new] in MADE_NEW {
        let made = renumbered(old).unwrap_or_else(|why| panic!("{old}: {why}"));
        assert_eq!((made.text.as_str(), made.changes.len()), (new, 1));
    }
}

#[test]
fn what_is_new_or_has_no_bad_field_is_left() {
    for row in MADE_NEW.iter().map(|[_, new]| new).chain(&LEFT) {
        let left = renumbered(row).unwrap_or_else(|why| panic!("{row}: {why}"));
        assert_eq!((left.text.as_str(), left.changes.len()), (*row, 0));
    }
}

#[test]
fn what_is_neither_old_nor_new_is_refused() {
    for [row, why] in REFUSED {
        let text = format!("{}\n{row}\n", LEFT[0]);
        assert_eq!(renumbered(&text), Err(format!("line 2: {why}")), "{row}");
    }
}

/// A text keeps its comments, its empty lines and how it ends.
#[test]
fn a_text_and_its_changes() {
    let [[one, one_new], [two, two_new], ..] = MADE_NEW;
    let around = |one: &str, two: &str| format!("#\n{one}\n\n{}\n{two}", LEFT[4]);
    let made = renumbered(&around(one, two)).expect("both can be made new");
    assert_eq!(made.text, around(one_new, two_new));
    let change = |line, offset| Change {
        line,
        old: Given { number: 6, offset },
        new: Given {
            number: 6,
            offset: offset + 1,
        },
    };
    assert_eq!(made.changes, [change(2, 0), change(5, 2)]);
    assert_eq!(made.vectors, 3);
}

/// Vectors with a number of a bad field as document 01 had them: 6, and the offset of the kind byte.
fn as_it_was(row: &str) -> Option<String> {
    let line = Line::parse(row).filter(|line| field::NUMBERS.contains(&line.ran.number))?;
    let mut old = line.clone();
    old.ran.number = 6;
    old.ran.offset = after(&line.trace, line.ran.count).0;
    Some(old.to_string())
}

/// The text is left as it is, and is made again from what it was.
fn check(text: &str, vectors: usize) {
    let again = renumbered(text).expect("every line is new");
    assert_eq!((again.text.as_str(), again.vectors), (text, vectors));
    assert_eq!(again.changes, []);
    let back = |row: &str| as_it_was(row).unwrap_or(row.to_string());
    let old: Vec<String> = text.split('\n').map(back).collect();
    let made = renumbered(&old.join("\n")).expect("every line can be made new");
    assert_eq!(made.text, text);
    let fields = text.lines().filter_map(as_it_was).count();
    assert!(fields > 0 && made.changes.len() == fields);
}

#[test]
fn base() {
    check(BASE, 500);
}

/// These have the numbers and offsets of ask 1 already.
#[test]
fn fields() {
    check(FIELDS, 120);
}

/// The command with these words, and what it is given at its input.
fn command(words: &[&str], input: &str) -> Output {
    let mut command = Command::new(env!("CARGO_BIN_EXE_renumber"));
    command.args(words).stdin(Stdio::piped());
    command.stdout(Stdio::piped()).stderr(Stdio::piped());
    let mut child = command.spawn().expect("the command is built");
    let mut pipe = child.stdin.take().expect("its input is a pipe");
    pipe.write_all(input.as_bytes()).expect("it reads all");
    drop(pipe);
    child.wait_with_output().expect("it ends")
}

/// Its exit status, output and error output.
fn seen(output: &Output) -> (Option<i32>, &str, &str) {
    let text = |bytes| std::str::from_utf8(bytes).expect("it writes text");
    let (out, err) = (text(&output.stdout), text(&output.stderr));
    (output.status.code(), out, err)
}

#[test]
fn the_command() {
    let [[old, new], ..] = MADE_NEW;
    let made = command(&[], &format!("{}\n{old}\n", LEFT[1]));
    let text = format!("{}\n{new}\n", LEFT[1]);
    let told = "line 2: 6 0, now 6 1\n1 of 2 changed\n";
    assert_eq!(seen(&made), (Some(0), text.as_str(), told));
    let [[row, why], ..] = REFUSED;
    let refused = command(&[], &format!("{old}\n{row}\n"));
    let told = format!("line 2: {why}\n");
    assert_eq!(seen(&refused), (Some(1), "", told.as_str()));
    let file = concat!(env!("CARGO_MANIFEST_DIR"), "/../vectors/base.txt");
    let left = command(&[file], "");
    assert_eq!(seen(&left), (Some(0), BASE, "0 of 500 changed\n"));
}
