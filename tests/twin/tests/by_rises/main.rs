//! A second reading of document 01, and of asks 1, 2 and 6 of document 02, and the twin held against it
//! event by event. The twin's buses go by the phases of docs/IMAGE.md, as the build's do, and a
//! misreading that this form invites would be in both. Here they go by the paper's own words: counted
//! rises of a selection, bytes since START. The reading has its own table and takes no rule from the
//! twin.

mod both;
mod i2c;
#[path = "../common/offset.rs"]
mod offset;
mod part;
mod reading;
mod spi;
mod tally;
#[path = "../common/vectors.rs"]
mod vectors;

use both::Both;
use offset::behind_kind;
use reading::Reading;
use tally::Tally;
use twin::gen::{self, Case, Rng};
use twin::text::{first_memory, Line};
use twin::trace::events;
use twin::Ran;

/// Generated traces of each part.
const TRACES: u64 = 20_000;

/// Every event of a trace, refused ones included, and one without bytes behind them; the whole memory
/// at the end.
fn follow(case: &Case, tally: &mut Tally) {
    tally.makings.insert((case.pins, case.bits));
    let mut both = Both::make(case);
    for event in events(&case.trace) {
        both.event(tally);
        both.at += event.len();
    }
    both.event(&mut Tally::default());
    both.compare_memory();
}

/// Generated traces of a part, of all its pins and bits.
fn follow_part(part: u32) {
    let mut rng = Rng::new(0x0175_e500 + u64::from(part));
    let mut tally = Tally::default();
    for _ in 0..TRACES {
        let case = gen::case_of(&mut rng, part);
        follow(&case, &mut tally);
    }
    tally.assert_floors(part as usize);
}

#[test]
fn part_0() {
    follow_part(0);
}

#[test]
fn part_1() {
    follow_part(1);
}

#[test]
fn part_2() {
    follow_part(2);
}

#[test]
fn part_3() {
    follow_part(3);
}

#[test]
fn part_4() {
    follow_part(4);
}

/// A making that the table does not allow is that of part 0.
#[test]
fn refused_makings() {
    let mut rng = Rng::new(0x0175_e505);
    for (part, pins, bits) in [
        (5, 0, 0),
        (0, 1, 0),
        (0, 0, 1),
        (1, 0, 8),
        (3, 8, 0),
        (4, 4, 0),
    ] {
        let trace = gen::trace(&mut rng, 0);
        let case = Case {
            part,
            pins,
            bits,
            trace,
        };
        follow(&case, &mut Tally::default());
    }
}

/// A line of the vectors as the reading runs it: up to the end or to an event that is refused.
fn again(line: &Line) -> Line {
    let (_, mut reading) = Reading::make(line.part, line.pins, line.bits);
    let mut memory = first_memory(reading.size());
    let mut answers = Vec::new();
    let mut ran = Ran::none(0, &line.trace);
    let none = ran.flag;
    for event in events(&line.trace) {
        let given = reading.event(event, &mut memory);
        if given.number != 0 {
            ran.number = given.number;
            ran.offset += behind_kind(given.number);
            break;
        }
        answers.push(given.answer);
        if given.step.flag && ran.flag == none {
            ran.flag = ran.offset;
        }
        ran.count += 1;
        ran.offset += event.len() as u64;
    }
    line.with(ran, answers, &memory)
}

#[test]
fn every_line_agrees() {
    vectors::base_agrees(again);
}

#[test]
fn every_bad_field_agrees() {
    vectors::fields_agree(again);
}

#[test]
fn every_flag_agrees() {
    vectors::flags_agree(again);
}

#[test]
fn every_late_store_agrees() {
    vectors::late_agrees(again);
}

/// The traces made by hand, whose values are the twin's.
#[test]
fn every_trace_made_by_hand_agrees() {
    let path = vectors::vectors("more.txt", "TWIN_MORE_VECTORS");
    let count = vectors::lines_agree(&path, false, again);
    assert!(count > 0, "no vectors in {}", path.display());
}
