//! The warning flag: what the report lists and counts is what single events are flagged with.

mod common;

use common::command::Ended;
use common::judged::{agrees, more_agree, run};
use common::many;
use common::played::{flagged, played, Made};
use common::random::Random;
use common::report::{numbers, Report};
use common::walk::{long_walk, walk};
use sildrokk::Part;

/// That the report counts these, and lists the first sixteen by offset and number.
#[track_caller]
fn lists(report: &Report, flagged: &[(u64, u64)]) {
    let lines = report.lines("warnings");
    let listed = flagged.len().min(16);
    match flagged.len() {
        0 => assert_eq!(lines, ["none"]),
        count => assert_eq!(report.numbers("warnings")[0], count as u64),
    }
    let told: Vec<Vec<u64>> = lines[1..=listed].iter().map(|line| numbers(line)).collect();
    let meant: Vec<Vec<u64>> = flagged[..listed]
        .iter()
        .map(|(at, number)| vec![*at, *number])
        .collect();
    assert_eq!(told, meant);
    more_agree(&lines[1 + listed..], flagged.len() - listed);
}

fn judged(made: &Made, trace: &[u8], ended: Ended) -> usize {
    let flagged = flagged(made, trace);
    let report = agrees(ended, made, trace, &played(made, trace, u64::MAX));
    lists(&report, &flagged);
    flagged.len()
}

#[test]
fn walks_of_every_length() {
    let mut random = Random::of(20);
    let mut counts = Vec::new();
    for _ in 0..many(300, 10) {
        let made = Made::of(random.one_of(&Part::ALL));
        let events = random.one_of(&[3, 10, 30, 100, 300, 3_000]);
        let trace = walk(made.part, events, &mut random);
        counts.push(judged(&made, &trace, run(&made, &trace, &[])));
    }
    let some = |range: std::ops::Range<usize>| counts.iter().any(|count| range.contains(count));
    assert!(
        some(0..1) && some(1..16) && some(16..17) && some(17..usize::MAX),
        "{counts:?}"
    );
}

/// Long ones, of which every piece has some: they are counted through to the end.
#[test]
fn long_walks() {
    let mut random = Random::of(21);
    for part in [Part::Mr45v100a, Part::Mr44v064b] {
        let made = Made::of(part);
        let trace = long_walk(part, many(1_000_000, 10), &mut random);
        let count = judged(&made, &trace, run(&made, &trace, &[]));
        assert!(count > 10_000, "only {count}");
    }
}

/// A long way without any, then a single one, far from any piece's beginning.
#[test]
fn a_single_one_far_behind() {
    let mut random = Random::of(22);
    let made = Made::of(Part::Mr45v032a);
    for _ in 0..many(20, 10) {
        let before = random.within(0..1_000_000);
        let mut trace = vec![0x01, 0x19];
        (0..before).for_each(|at| trace.extend([0x04, [0x18, 0x19][at % 2]]));
        trace.extend([0x04, 0x18, 0x04, 0x10, 0x04, 0x18]);
        trace.extend([0x04, 0x19].repeat(random.within(0..100_000)));
        let count = judged(&made, &trace, run(&made, &trace, &[]));
        assert_eq!(count, 2);
    }
}

/// A part, a trace, and its flagged events by offset and number.
type Case = (Part, &'static [u8], &'static [(u64, u64)]);

/// The four lines of the table in docs/RULES.md.
#[test]
fn the_table_of_the_rules() {
    let cases: [Case; 4] = [
        (
            Part::Mr45v032a,
            &[0x01, 0x19, 0x04, 0x18, 0x04, 0x10],
            &[(4, 2)],
        ),
        (Part::Mr45v032a, &[0x01, 0x19, 0x04, 0x10, 0x04, 0x11], &[]),
        (
            Part::Mr44v064b,
            &[0x02, 0x03, 0, 0, 0, 0x04, 0x01, 0x04, 0x05],
            &[(7, 2)],
        ),
        (Part::Mr44v064b, &[0x02, 0x03, 0, 0, 0, 0x04, 0x07], &[]),
    ];
    for (part, trace, flagged) in cases {
        let ended = run(&Made::of(part), trace, &[]).well();
        lists(&Report::of(&ended.out), flagged);
    }
}

/// Those behind the quota, and those behind a refused event, are none.
#[test]
fn only_accepted_events() {
    let (made, moves) = (
        Made::of(Part::Mr45v032a),
        [0x04, 0x10, 0x04, 0x18].repeat(30),
    );
    let head = [0x01, 0x19, 0x04, 0x18];
    let told = run(&made, &[&head[..], &moves].concat(), &["--quota", "5"]).well();
    lists(&Report::of(&told.out), &[(4, 2), (6, 3), (8, 4)]);
    let told = run(
        &made,
        &[&head[..], &moves[..2], &[0x07], &moves].concat(),
        &[],
    )
    .with(1);
    lists(&Report::of(&told.out), &[(4, 2)]);
}
