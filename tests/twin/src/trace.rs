//! Traces as bytes: taken apart by their kinds alone, and the one event of several fields put
//! together. The model's runs read their events by themselves, so that this is a second opinion on
//! where each begins.

/// The events of a trace, whole or not; an unknown kind is one byte.
pub fn events(trace: &[u8]) -> impl Iterator<Item = &[u8]> {
    let mut rest = trace;
    std::iter::from_fn(move || {
        let &kind = rest.first()?;
        let length = match kind {
            1 | 4 | 5 => 2,
            2 => 5,
            _ => 1,
        };
        let (event, after) = rest.split_at(length.min(rest.len()));
        rest = after;
        Some(event)
    })
}

/// How many bytes the first so many events take, and the event after them.
pub fn after(trace: &[u8], count: u64) -> (u64, Option<&[u8]>) {
    let mut rest = events(trace);
    let first = rest.by_ref().take(count as usize);
    let bytes = first.map(|event| event.len() as u64).sum();
    (bytes, rest.next())
}

/// The power on of an I2C part; a start address has three bytes.
pub fn i2c_on(sample: u8, start: u32) -> [u8; 5] {
    let [_, high, middle, low] = start.to_be_bytes();
    [2, sample, high, middle, low]
}
