//! Selections as bytes: every line of the vectors, and generated cases on the proved build, on the
//! twin and on the proved build's own pins.

use drive::bad_bytes::LEVELS;
use drive::byte_call::ByteCall;
use drive::script::Script;
use drive::tally::ByteTally;
use drive::Making;
use twin::gen::{self, Rng};
use twin::text::{changed_cells, first_memory, ByteLine, OUTPUT_BEFORE};
use twin::PARTS;

const BYTES: &str = include_str!("../../vectors/bytes.txt");

/// The line that the proved build gives for a line's making, trace and selection.
fn proved(line: &ByteLine) -> ByteLine {
    let making = Making::new(line.part, line.pins, line.bits);
    let mut memory = first_memory(PARTS[line.part as usize].size);
    let mut output = vec![OUTPUT_BEFORE; line.length];
    let selected = drive::select(
        making,
        &line.trace,
        line.wp,
        &line.input,
        &mut output,
        &mut memory,
    );
    ByteLine {
        number: selected.number,
        first: selected.first,
        count: selected.count,
        output,
        changed: changed_cells(&memory),
        ..line.clone()
    }
}

#[test]
fn vectors() {
    let rows = || BYTES.lines().filter(|row| !row.starts_with('#'));
    for row in rows() {
        let line = ByteLine::parse(row).unwrap_or_else(|| panic!("not a vector: {row}"));
        assert_eq!(line.again(), line, "the twin differs");
        assert_eq!(proved(&line), line, "the proved build differs");
    }
    assert_eq!(rows().count(), 300);
}

/// With SRWD set, a WRSR with WP# low is dropped: the status register that is then read tells which
/// levels are low. Only 0 is.
#[test]
fn levels_of_wp() {
    for (part, wp) in (0..3).flat_map(|part| LEVELS.map(|wp| (part, wp))) {
        let mut state = drive::made(Making::new(part, 0, 0));
        let mut memory = first_memory(PARTS[part as usize].size);
        let mut script = Script::spi();
        script.command(&[0x06]);
        script.command(&[0x01, 0x80]);
        script.command(&[0x06]);
        let ran = drive::run_on(&mut state, u64::MAX, script.trace(), &mut memory, None);
        assert_eq!(ran.number, 0);
        let mut select = |input: [u8; 2]| {
            let mut output = [0; 2];
            let selected = drive::select_on(&mut state, wp, &input, &mut output, &mut memory);
            assert_eq!(selected.number, 0);
            output[1]
        };
        select([0x01, 0x04]);
        let status = if wp == 0 { 0x80 } else { 0x04 };
        assert_eq!(select([0x05, 0x00]), status, "part {part}, WP# {wp}");
    }
}

/// So many cases of a part, all that is drawn by a fixed seed.
fn differential(part: u32, cases: u64) -> ByteTally {
    let mut rng = Rng::new(0xb17e5 + u64::from(part));
    let mut tally = ByteTally::default();
    for _ in 0..cases {
        let call = ByteCall::of(gen::byte_case(&mut rng, part));
        let agreed = call.compare();
        tally.add(&agreed.unwrap_or_else(|difference| panic!("{difference}: {call}")));
    }
    tally
}

/// Most selections are taken, each refusal of theirs is met, some traces before them end with a
/// refused event, those of bad fields among them; and they store and drive.
fn spi(part: u32) {
    let tally = differential(part, 2_400);
    assert!(2 * tally.numbers[0] > tally.selections, "{tally:?}");
    let refused = [12, 13].map(|number| tally.numbers[number]);
    assert!(refused.iter().all(|&count| count > 0), "{tally:?}");
    let fields = [6, 11].map(|number| tally.before[number]);
    assert!(fields.iter().all(|&count| count > 0), "{tally:?}");
    let met = tally.before[1..].iter().filter(|&&count| count > 0);
    assert!(met.count() >= 4, "{tally:?}");
    assert!(tally.stored > 2 * tally.selections, "{tally:?}");
    assert!(tally.driven > 2 * tally.selections, "{tally:?}");
}

/// All are refused with 4, whatever ended the trace before, among it each number of a bad field.
fn i2c(part: u32) {
    let tally = differential(part, 600);
    assert_eq!(tally.numbers[4], 600, "{tally:?}");
    let fields = [6, 10, 11].map(|number| tally.before[number]);
    assert!(fields.iter().all(|&count| count > 0), "{tally:?}");
}

#[test]
fn part_0() {
    spi(0);
}

#[test]
fn part_1() {
    spi(1);
}

#[test]
fn part_2() {
    spi(2);
}

#[test]
fn part_3() {
    i2c(3);
}

#[test]
fn part_4() {
    i2c(4);
}
