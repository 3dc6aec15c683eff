//! Every line of the vectors agrees with the twin: of traces the number, count, offset, answers,
//! changed cells and, where it has this column, flag's offset; of selections as bytes the number,
//! figures, output and changed cells.

#[path = "common/vectors.rs"]
mod files;

use files::{base_agrees, fields_agree, flags_agree, late_agrees, rows, vectors};
use twin::text::{ByteLine, Line};

#[test]
fn every_line_agrees() {
    base_agrees(Line::again);
}

#[test]
fn every_bad_field_agrees() {
    fields_agree(Line::again);
}

/// The flag's offset is the tenth column, or is not there; an eleventh is none.
#[test]
fn columns_of_a_line() {
    let row = "0 0 0 011804100418 0 3 6 ZZZ -";
    let plain = Line::parse(row).expect("a line");
    let flagged = Line::parse(&format!("{row} 2")).expect("a line");
    assert_eq!((plain.ran.flag, flagged.ran.flag), (None, Some(2)));
    assert_eq!(Line::play(0, 0, 0, &plain.trace), plain);
    assert_eq!(Line::play_flagged(0, 0, 0, &plain.trace), flagged);
    assert_eq!((plain.again(), flagged.again()), (plain, flagged));
    for more in [" x", " -", " -1", " 2 2", " 2 -"] {
        assert_eq!(Line::parse(&format!("{row}{more}")), None);
    }
    assert_eq!(Line::parse(&row[..row.len() - 2]), None);
}

#[test]
fn every_flag_agrees() {
    flags_agree(Line::again);
}

#[test]
fn every_late_store_agrees() {
    late_agrees(Line::again);
}

#[test]
fn every_selection_agrees() {
    let path = vectors("bytes.txt", "TWIN_BYTE_VECTORS");
    let rows = rows(&path);
    for (at, row) in &rows {
        let theirs = ByteLine::parse(row).unwrap_or_else(|| panic!("line {at}: not a vector"));
        let ours = theirs.again();
        assert_eq!(ours, theirs, "line {at}");
        assert_eq!(ours.to_string(), row.trim_end(), "line {at}: as text");
    }
    assert_eq!(rows.len(), 300, "vectors in {}", path.display());
}
