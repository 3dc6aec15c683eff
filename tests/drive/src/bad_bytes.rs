//! Selections as bytes with something wrong or at its limit, each with the number that it is to
//! return and how many bytes of memory then differ from the first.

use crate::bad::{no_sizes, one_stored, plain, NO_RESULTS, STORED_AT};
use crate::byte_call::ByteCall;
use crate::refused;
use twin::part::{spi_pin, Wires};
use twin::text::first_byte;
use twin::{Part, PARTS};

/// A call and what is to come of it.
#[derive(Clone)]
pub struct Bad {
    pub call: ByteCall,
    pub number: u8,
    pub changed: u64,
}

/// What the trace of a good call changes in memory.
const BY_TRACE: u64 = 1;
/// What the selection of the first good call then changes, from `SELECTED_AT` on.
const BY_SELECTION: u64 = 3;
const SELECTED_AT: usize = 0x200;

/// All of them.
pub fn calls() -> Vec<Bad> {
    let spi = |part| [levels(part), lengths(part), unready(part), refusals(part)];
    let of_part = |part: &'static Part| {
        let own = match part.wires {
            Wires::Spi => spi(part).concat(),
            Wires::I2c => other_bus(part),
        };
        [results(part), memories(part), own].concat()
    };
    PARTS.iter().flat_map(of_part).collect()
}

/// A trace that stores one byte and leaves the part at rest, enabled if it is on SPI.
fn trace_before(part: &Part) -> Vec<u8> {
    let mut script = one_stored(part);
    if part.wires == Wires::Spi {
        script.command(&[6]);
    }
    script.into_trace()
}

/// After that trace, selections of the part (of part 0 for one that has none): three bytes stored,
/// four driven, and no bytes at all. Each wrong thing must keep them from that.
fn good(part: &Part) -> [ByteCall; 3] {
    let codes_of = match part.wires {
        Wires::Spi => part,
        Wires::I2c => &PARTS[0],
    };
    let data: Vec<u8> = (0..3).map(|at| !first_byte(SELECTED_AT + at)).collect();
    let writes = [codes_of.addressed(2, SELECTED_AT), data].concat();
    let shows = [codes_of.addressed(3, STORED_AT - 1), vec![0; 4]].concat();
    [writes, shows, Vec::new()]
        .map(|input| ByteCall::whole(plain(part.number), trace_before(part), 1, input))
}

/// Each good call changed in each of some ways, with the number to come.
fn each_way<T>(
    part: &Part,
    ways: &[T],
    number: u8,
    changed: u64,
    change: impl Fn(&mut ByteCall, &T),
) -> Vec<Bad> {
    let with = |way: &T| {
        good(part).map(|mut call| {
            change(&mut call, way);
            Bad {
                call,
                number,
                changed,
            }
        })
    };
    ways.iter().flat_map(with).collect()
}

/// The same calls, and the same again with a buffer of another length, which is tested last.
fn with_another_length(all: Vec<Bad>) -> Vec<Bad> {
    let longer = |bad: &Bad| {
        let mut longer = bad.clone();
        longer.call.output += 1;
        longer
    };
    let longer: Vec<Bad> = all.iter().map(longer).collect();
    [all, longer].concat()
}

/// Results of another length: 2 comes before 3, 4, 12 and 13.
fn results(part: &Part) -> Vec<Bad> {
    let each = |(size, end): (usize, &[u8])| {
        let stored = u64::from(size > 0);
        each_way(part, &NO_RESULTS, 2, stored, |call, &length| {
            call.result = length;
            call.memory = size;
            call.trace.extend(end);
        })
    };
    let ways: [(usize, &[u8]); 3] = [(part.size, &[]), (part.size, &[3]), (0, &[])];
    with_another_length(ways.into_iter().flat_map(each).collect())
}

/// Memories of another length: 3 comes before 4, 12 and 13.
fn memories(part: &Part) -> Vec<Bad> {
    let each = |size: usize| {
        let stored = u64::from(size > STORED_AT);
        let ends: [&[u8]; 3] = [&[], &[3], &[4, 0]];
        each_way(part, &ends, 3, stored, |call, &end| {
            call.memory = size;
            call.trace.extend(end);
        })
    };
    with_another_length(no_sizes(part).into_iter().flat_map(each).collect())
}

/// A refused event at the end of the trace, at rest, with CS# 0 and without power: what came before it
/// stands, and the selection is as if it had not been sent.
fn refusals(part: &Part) -> Vec<Bad> {
    let refused = refused::events(part);
    let ends = |before: &[u8], powered| -> Vec<Vec<u8>> {
        let met = refused.iter().filter(|it| it.when.holds(powered));
        met.map(|it| [before, &it.event].concat()).collect()
    };
    let extend = |call: &mut ByteCall, end: &Vec<u8>| call.trace.extend(end);
    let selected = ends(&[4, spi_pin::HOLD], true);
    let unready = [selected, ends(&[3], false)].concat();
    [
        accepted(part, &ends(&[], true), extend),
        with_another_length(each_way(part, &unready, 12, BY_TRACE, extend)),
    ]
    .concat()
}

/// A part of the other bus, whatever its state and whatever is refused before.
fn other_bus(part: &Part) -> Vec<Bad> {
    let refused = refused::events(part).into_iter().map(|it| it.event);
    let ends = [vec![], vec![3], vec![4, 0]].into_iter().chain(refused);
    let ends: Vec<Vec<u8>> = ends.collect();
    let after = each_way(part, &ends, 4, BY_TRACE, |call, end| call.trace.extend(end));
    let nothing = each_way(part, &[()], 4, 0, |call, ()| call.trace.clear());
    with_another_length([after, nothing].concat())
}

/// No power, or CS# 0 in the last sample or at power on, with a buffer of any length.
fn unready(part: &Part) -> Vec<Bad> {
    let low = spi_pin::WP | spi_pin::HOLD;
    let ends: [&[u8]; 4] = [&[3], &[4, low], &[4, low, 5, 2], &[3, 1, low]];
    let after = each_way(part, &ends, 12, BY_TRACE, |call, &end| {
        call.trace.extend(end)
    });
    let nothing = each_way(part, &[()], 12, 0, |call, ()| call.trace.clear());
    with_another_length([after, nothing].concat())
}

/// A buffer of another length: 13.
fn lengths(part: &Part) -> Vec<Bad> {
    let with = |call: &ByteCall, output| Bad {
        call: ByteCall {
            output,
            ..call.clone()
        },
        number: 13,
        changed: BY_TRACE,
    };
    let each = |call: ByteCall| {
        let length = call.input.len();
        let others = [
            0,
            length.saturating_sub(1),
            length + 1,
            2 * length,
            256 + length,
        ];
        let others = others.into_iter().filter(move |&it| it != length);
        others.map(move |output| with(&call, output))
    };
    good(part).into_iter().flat_map(each).collect()
}

/// Levels of WP#, of which 256 has a low byte of 0; only 0 is low.
pub const LEVELS: [u32; 6] = [0, 1, 2, 256, 1 << 31, u32::MAX];

/// The state keeps the level as that of the last sample; all else is the same for all.
fn levels(part: &Part) -> Vec<Bad> {
    accepted(part, &LEVELS, |call, &wp| call.wp = wp)
}

/// Good calls, changed in ways that nothing depends on.
fn accepted<T>(part: &Part, ways: &[T], change: impl Fn(&mut ByteCall, &T)) -> Vec<Bad> {
    let mut all = each_way(part, ways, 0, BY_TRACE, change);
    for bad in &mut all {
        if bad.call.input.first() == Some(&2) {
            bad.changed += BY_SELECTION;
        }
    }
    all
}
