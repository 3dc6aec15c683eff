//! Traces taken apart, as written by hand.

use twin::trace::{after, events, i2c_on};

/// Each kind, an unknown one, and one that is cut short.
#[test]
fn events_by_their_kinds() {
    let parts: [&[u8]; 8] = [
        &[1, 25],
        &i2c_on(3, 0x01_0203),
        &[9],
        &[3],
        &[4, 5],
        &[5, 2],
        &[0],
        &[2, 1, 1, 1],
    ];
    assert_eq!(parts[1], [2, 3, 1, 2, 3]);
    let trace = parts.concat();
    assert!(events(&trace).eq(parts));
    for (count, part) in (0..).zip(parts) {
        let before = parts[..count as usize].concat().len() as u64;
        assert_eq!(after(&trace, count), (before, Some(part)));
    }
    for count in [8, 9, u64::MAX] {
        assert_eq!(after(&trace, count), (trace.len() as u64, None));
    }
    assert_eq!(events(&[]).count(), 0);
}
