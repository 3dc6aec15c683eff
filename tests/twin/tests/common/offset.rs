//! Where a run's offset shows in a refused event.

/// How far behind the kind byte it shows for a number: sample and expected value are the first field
/// of their events, the start address comes behind a sample.
pub fn behind_kind(number: u8) -> u64 {
    match number {
        6 | 11 => 1,
        10 => 2,
        _ => 0,
    }
}
