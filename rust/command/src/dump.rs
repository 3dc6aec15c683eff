//! Which bytes of a memory changed, in rows with before and after.

use crate::report::Report;
use console::Style;
use indicatif::HumanCount;

/// How many bytes a row has, and how many rows are shown.
const ROW: usize = 16;
const SHOWN: usize = 16;

/// How many bytes changed, the first rows that have such bytes, and how many more there are.
pub fn changes(report: &mut Report, before: &[u8], after: &[u8]) {
    let changed = before.iter().zip(after).filter(|(old, new)| old != new);
    let changed = HumanCount(changed.count() as u64);
    let size = HumanCount(after.len() as u64);
    report.line("memory", format!("{changed} of {size} bytes changed"));
    let rows = before.chunks(ROW).zip(after.chunks(ROW)).enumerate();
    let mut rows = rows.filter(|(_, (old, new))| old != new);
    for (row, (old, new)) in rows.by_ref().take(SHOWN) {
        let (old_text, new_text) = (bytes(report, old, old), bytes(report, new, old));
        report.more(format!("{:06X}h  before{old_text}", row * ROW));
        report.more(format!("         after {new_text}"));
    }
    match rows.count() {
        0 => {}
        more => report.more(format!("and {} more such rows", HumanCount(more as u64))),
    }
}

/// The bytes of a row, where those that differ from the others catch the eye.
fn bytes(report: &Report, row: &[u8], others: &[u8]) -> String {
    let shown = row.iter().zip(others).map(|(byte, other)| {
        let style = match byte == other {
            true => Style::new(),
            false => Style::new().bold().green(),
        };
        report.paint(format!("{byte:02X}"), style)
    });
    let shown: Vec<String> = shown.collect();
    format!("  {}", shown.join(" "))
}
