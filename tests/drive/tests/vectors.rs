//! Every line of the vectors agrees with the proved build, as one run and one event at a time, and with
//! the twin: number, count, offset, answers, changed cells and flag offset, which on lines without its
//! column is the twin's.

use drive::call::Call;
use drive::{Making, Ran};
use twin::text::{first_memory, Line};
use twin::{Model, PARTS};

const BASE: &str = include_str!("../../vectors/base.txt");
const FIELDS: &str = include_str!("../../vectors/fields.txt");
const FLAGS: &str = include_str!("../../vectors/flags.txt");
const LATE: &str = include_str!("../../vectors/late.txt");
const MORE: &str = include_str!("../../vectors/more.txt");

fn making(line: &Line) -> Making {
    Making::new(line.part, line.pins, line.bits)
}

/// What the proved build gives for a line's making and trace, and the line that this makes.
fn proved(line: &Line) -> (Ran, Line) {
    let mut memory = first_memory(PARTS[line.part as usize].size);
    let mut answers = vec![0xff; line.trace.len()];
    let ran = drive::run(
        making(line),
        u64::MAX,
        &line.trace,
        &mut memory,
        Some(&mut answers),
    );
    let written = answers.iter().take_while(|&&answer| answer != 0xff).count();
    answers.truncate(written);
    (ran, line.with(ran, answers, &memory))
}

/// What the twin gives.
fn twin(line: &Line) -> Ran {
    let (_, mut model) = Model::make(line.part, line.pins, line.bits);
    let mut memory = first_memory(model.part().size);
    model.run_each(&line.trace, u64::MAX, &mut memory, |_| ())
}

/// What there is in a file: lines, and those of them whose run has a flag.
#[derive(Debug, PartialEq, Eq)]
struct Lines {
    all: usize,
    flagged: usize,
}

/// The lines of a text.
fn parsed(text: &str) -> impl Iterator<Item = Line> + '_ {
    let rows = text.lines().filter(|row| !row.starts_with('#'));
    rows.map(|row| Line::parse(row).unwrap_or_else(|| panic!("not a vector: {row}")))
}

/// Checks every line of a text, which all have the flag's column or all have not.
fn check(text: &str, flag_column: bool) -> Lines {
    let mut lines = Lines { all: 0, flagged: 0 };
    for line in parsed(text) {
        assert_eq!(line.ran.flag.is_some(), flag_column, "{line}");
        assert_eq!(line.again(), line, "the twin differs");
        let (ran, same) = proved(&line);
        assert_eq!(same, line, "the proved build differs");
        assert_eq!(ran, twin(&line), "the two differ: {line}");
        let call = Call::whole(making(&line), line.trace.clone());
        assert_eq!(call.compare_singly(), Ok(()), "{line}");
        lines.all += 1;
        lines.flagged += usize::from(ran.flag < line.trace.len() as u64);
    }
    lines
}

#[test]
fn base() {
    assert_eq!(check(BASE, false).all, 500);
}

#[test]
fn fields() {
    assert_eq!(check(FIELDS, false).all, 120);
}

#[test]
fn flags() {
    let lines = check(FLAGS, true);
    assert_eq!(lines.all, 120);
    assert!(0 < lines.flagged && lines.flagged < 120, "{lines:?}");
}

#[test]
fn late() {
    assert_eq!(check(LATE, true).all, 120);
}

/// The same lines once more with the ledger, and stopped around their flagged event and halfway.
#[test]
fn flags_by_ledger_and_quota() {
    by_ledger_and_quota(FLAGS);
}

#[test]
fn late_by_ledger_and_quota() {
    by_ledger_and_quota(LATE);
}

fn by_ledger_and_quota(text: &str) {
    for line in parsed(text) {
        let call = Call::whole(making(&line), line.trace);
        let compared = call.compare().and_then(|agreed| {
            let half = agreed.ran.count / 2;
            call.compare_stopped(&agreed, half).map(|_| agreed)
        });
        let agreed = compared.unwrap_or_else(|difference| panic!("{difference}: {call}"));
        assert_eq!(Some(agreed.ran.flag), line.ran.flag, "{call}");
    }
}

#[test]
fn more() {
    assert_eq!(check(MORE, false).all, 65);
}

/// The file is what its generator prints, so that neither is changed alone.
#[test]
fn more_is_as_generated() {
    assert_eq!(MORE, drive::more::text());
}
