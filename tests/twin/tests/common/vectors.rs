//! The files of vectors, and lines of traces played over again.

use std::path::{Path, PathBuf};
use twin::text::Line;

/// The vectors lie beside the package (tests/vectors of the repository), or where the environment
/// says.
pub fn vectors(name: &str, variable: &str) -> PathBuf {
    let beside = Path::new(env!("CARGO_MANIFEST_DIR")).join("../vectors");
    std::env::var_os(variable).map_or(beside.join(name), PathBuf::from)
}

/// The rows that aren't comments, with their line numbers.
pub fn rows(path: &Path) -> Vec<(usize, String)> {
    let text =
        std::fs::read_to_string(path).unwrap_or_else(|error| panic!("{}: {error}", path.display()));
    let rows = (1..).zip(text.lines().map(str::to_string));
    rows.filter(|(_, row)| !row.starts_with('#')).collect()
}

/// Plays every line of a file, all with the flag's offset or all without; how many there are.
pub fn lines_agree(path: &Path, flagged: bool, again: impl Fn(&Line) -> Line) -> usize {
    let rows = rows(path);
    for (at, row) in &rows {
        let theirs = Line::parse(row).unwrap_or_else(|| panic!("line {at}: not a vector"));
        assert_eq!(theirs.ran.flag.is_some(), flagged, "line {at}: columns");
        let ours = again(&theirs);
        assert_eq!(ours.ran, theirs.ran, "line {at}");
        assert_eq!(ours.answers, theirs.answers, "line {at}: answers");
        assert_eq!(ours.changed, theirs.changed, "line {at}: changed cells");
        assert_eq!(ours.to_string(), row.trim_end(), "line {at}: as text");
    }
    rows.len()
}

pub fn base_agrees(again: impl Fn(&Line) -> Line) {
    let path = vectors("base.txt", "TWIN_VECTORS");
    let count = lines_agree(&path, false, again);
    assert!(count > 0, "no vectors in {}", path.display());
}

/// Lines with fields out of range, and some without.
pub fn fields_agree(again: impl Fn(&Line) -> Line) {
    let path = vectors("fields.txt", "TWIN_FIELD_VECTORS");
    let count = lines_agree(&path, false, again);
    assert_eq!(count, 120, "vectors in {}", path.display());
}

/// Lines with the flag's offset.
pub fn flags_agree(again: impl Fn(&Line) -> Line) {
    let path = vectors("flags.txt", "TWIN_FLAG_VECTORS");
    let count = lines_agree(&path, true, again);
    assert_eq!(count, 120, "vectors in {}", path.display());
}

/// Lines with the flag's offset, of the part that stores late.
pub fn late_agrees(again: impl Fn(&Line) -> Line) {
    let path = vectors("late.txt", "TWIN_LATE_VECTORS");
    let count = lines_agree(&path, true, again);
    assert_eq!(count, 120, "vectors in {}", path.display());
}
