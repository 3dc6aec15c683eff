//! Events as the crate writes and reads them, held against what the archive takes.

mod common;

use common::{power_on, Chip};
use sildrokk::trace::Event;
use sildrokk::{Bus, Part, Refusal};

/// One of each kind, in the order of the kinds; no two bytes of one are the same.
const EVENTS: [Event; 5] = [
    Event::SpiPowerOn { sample: 0x19 },
    Event::I2cPowerOn {
        sample: 0x07,
        start: 0x01_23_45,
    },
    Event::PowerOff,
    Event::Sample(0x1a),
    Event::Expected(0x06),
];

fn written(event: Event) -> Vec<u8> {
    let mut trace = Vec::new();
    event.write(&mut trace);
    trace
}

/// What a part just made says to an event.
fn refusal(part: Part, event: &[u8]) -> Option<Refusal> {
    let mut chip = Chip::new(part);
    chip.model.event(event, &mut chip.memory).err()
}

#[test]
fn written_and_read() {
    for (kind, event) in (1..).zip(EVENTS) {
        let mut trace = written(event);
        let length = trace.len();
        assert_eq!((trace[0], Event::length(kind)), (kind, Some(length)));
        for end in 0..length {
            assert_eq!(Event::read(&trace[..end]), None, "{event:?} {end}");
        }
        trace.push(0xff);
        assert_eq!(Event::read(&trace), Some((event, length)));
    }
}

#[test]
fn power_on_of_each_bus() {
    assert_eq!(power_on(Bus::Spi), [0x01, 0x19]);
    assert_eq!(power_on(Bus::I2c), [0x02, 0x03, 0x00, 0x00, 0x00]);
}

/// The archive has the same kinds, of the same lengths.
#[test]
fn kinds_and_lengths() {
    for kind in 0..=u8::MAX {
        let part = match kind {
            0x02 => Part::Mr44v064b,
            _ => Part::Mr45v032a,
        };
        let event = [kind, 0, 0, 0, 0];
        let Some(length) = Event::length(kind) else {
            assert_eq!(refusal(part, &event), Some(Refusal::Kind), "{kind}");
            continue;
        };
        assert_ne!(refusal(part, &event[..length]), Some(Refusal::Incomplete));
        for end in 0..length {
            let cut = refusal(part, &event[..end]);
            assert_eq!(cut, Some(Refusal::Incomplete), "{kind} {end}");
        }
    }
}

/// The bytes of a start address go in as the archive takes them: up to the top address, and no further.
#[test]
fn start_addresses() {
    for part in [Part::Mr44v064b, Part::Ms85rc1mty] {
        let on = |start| written(Event::I2cPowerOn { sample: 3, start });
        let size = part.size() as u32;
        assert_eq!(refusal(part, &on(size - 1)), None, "{part}");
        let above = refusal(part, &on(size));
        assert_eq!(above, Some(Refusal::StartAddress), "{part}");
    }
}
