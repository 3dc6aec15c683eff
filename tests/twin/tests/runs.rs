//! "Trace runs": quota, count, offset and flag's offset over generated traces, and where the offset
//! shows.

#[path = "common/added.rs"]
mod added;
#[path = "common/offset.rs"]
mod offset;

use added::added;
use offset::behind_kind;
use twin::gen::{self, Rng};
use twin::text::first_memory;
use twin::trace::events;
use twin::{Model, Ran};

/// How many of some generated runs had each number.
type Ended = [u32; 12];

/// The numbers of bad fields are among those that ended the runs, or the test says little.
fn assert_bad_fields(ended: Ended) {
    for number in [0, 6, 10, 11] {
        assert!(ended[number] > 0, "none of {number}: {ended:?}");
    }
}

#[test]
fn a_run_is_its_events_one_by_one() {
    let mut rng = Rng::new(11);
    let mut ended = Ended::default();
    for _ in 0..3000 {
        let case = gen::case(&mut rng);
        let (_, mut model) = Model::make(case.part, case.pins, case.bits);
        let (mut alone, mut cells) = (model.clone(), first_memory(model.part().size));
        let mut memory = cells.clone();
        let mut answers = Vec::new();
        let ran = model.run(&case.trace, u64::MAX, &mut memory, &mut answers);
        let (mut at, mut rest) = (0, events(&case.trace));
        let mut first = None;
        for &answer in &answers {
            let (number, same, flag) = alone.event(&case.trace[at..], &mut cells);
            assert_eq!((number, same), (0, answer));
            first = first.or(flag.then_some(at));
            at += rest.next().expect("an answer is an event's").len();
        }
        let end = at == case.trace.len();
        let number = if end {
            0
        } else {
            alone.event(&case.trace[at..], &mut cells).0
        };
        let expected = Ran {
            number,
            count: answers.len() as u64,
            offset: at as u64 + behind_kind(number),
            flag: first.unwrap_or(case.trace.len()) as u64,
        };
        assert_eq!(ran, expected);
        assert_eq!((number == 0, &alone, &cells), (end, &model, &memory));
        ended[usize::from(number)] += 1;
    }
    assert_bad_fields(ended);
}

/// If the first run isn't refused. If it is, the quota of the second does not matter.
#[test]
fn two_runs_add_up() {
    let mut rng = Rng::new(12);
    let mut ended = Ended::default();
    for _ in 0..6000 {
        let case = gen::case(&mut rng);
        let (_, mut whole) = Model::make(case.part, case.pins, case.bits);
        let (mut split, mut cells) = (whole.clone(), first_memory(whole.part().size));
        let mut memory = cells.clone();
        let (j, k) = (rng.below(400), rng.below(1200));
        let (mut one, mut two) = (Vec::new(), Vec::new());
        let all = whole.run(&case.trace, j + k, &mut memory, &mut one);
        let first = split.run(&case.trace, j, &mut cells, &mut two);
        if first.number != 0 {
            assert_eq!(first, all);
            continue;
        }
        let rest = &case.trace[first.offset as usize..];
        let second = split.run(rest, k, &mut cells, &mut two);
        let sum = added(first, second, &case.trace);
        assert_eq!((sum, one, whole, memory), (all, two, split, cells));
        assert!(all.count <= j + k);
        if first.count > 0 {
            ended[usize::from(second.number)] += 1;
        }
    }
    assert_bad_fields(ended);
}

/// Number, count and offset of a run on a model with a memory of its size.
fn run(model: &mut Model, trace: &[u8], quota: u64) -> (u8, u64, u64) {
    let mut memory = first_memory(model.part().size);
    let ran = model.run(trace, quota, &mut memory, &mut Vec::new());
    (ran.number, ran.count, ran.offset)
}

#[test]
fn quota_and_end() {
    let (_, mut model) = Model::make(0, 0, 0);
    let mut run = |trace: &[u8], quota| run(&mut model, trace, quota);
    assert_eq!(run(&[9], 0), (0, 0, 0));
    assert_eq!(run(&[5, 3], 0), (0, 0, 0));
    assert_eq!(run(&[], 9), (0, 0, 0));
    assert_eq!(run(&[1, 25, 4, 25, 9], 2), (0, 2, 4));
    assert_eq!(run(&[4, 25, 9], 2), (4, 1, 2));
    assert_eq!(run(&[4, 25, 4], 2), (5, 1, 2));
    // A bad field behind the quota is not seen.
    assert_eq!(run(&[4, 25, 4, 32], 1), (0, 1, 2));
    assert_eq!(run(&[4, 25, 4, 32], 2), (6, 1, 3));
}

/// Behind four accepted events (power on, sample, expected answer, sample), or five with power off:
/// 6, 10 and 11 show the first byte of the field, the others the kind byte.
#[test]
fn offsets_behind_accepted_events() {
    let spi = [1, 25, 4, 24, 5, 2, 4, 25, 3];
    let i2c = [2, 3, 0, 0x1f, 0xff, 4, 1, 5, 2, 4, 3, 3];
    let of = |part, trace: &[u8], event: &[u8]| {
        let trace = [trace, event, &[4, 1]].concat();
        run(&mut Model::make(part, 0, 0).1, &trace, u64::MAX)
    };
    for part in 0..3 {
        assert_eq!(of(part, &spi[..8], &[1, 32]), (6, 4, 9));
        assert_eq!(of(part, &spi[..8], &[4, 32]), (6, 4, 9));
        assert_eq!(of(part, &spi[..8], &[5, 3]), (11, 4, 9));
        assert_eq!(of(part, &spi[..8], &[0, 3]), (4, 4, 8));
        assert_eq!(of(part, &spi[..8], &[1, 31]), (8, 4, 8));
        assert_eq!(of(part, &spi[..8], &[5, 1]), (9, 4, 8));
        assert_eq!(of(part, &spi, &[1, 32]), (6, 5, 10));
        assert_eq!(of(part, &spi, &[4, 32]), (6, 5, 10));
        assert_eq!(of(part, &spi, &[5, 3]), (11, 5, 10));
        assert_eq!(of(part, &spi, &[4, 31]), (7, 5, 9));
    }
    for part in 3..5 {
        assert_eq!(of(part, &i2c[..11], &[2, 8, 0, 0, 0]), (6, 4, 12));
        assert_eq!(of(part, &i2c[..11], &[2, 7, 2, 0, 0]), (10, 4, 13));
        assert_eq!(of(part, &i2c[..11], &[2, 8, 2, 0, 0]), (6, 4, 12));
        assert_eq!(of(part, &i2c[..11], &[4, 8]), (6, 4, 12));
        assert_eq!(of(part, &i2c[..11], &[5, 3]), (11, 4, 12));
        assert_eq!(of(part, &i2c[..11], &[2, 7, 0, 0, 0]), (8, 4, 11));
        assert_eq!(of(part, &i2c, &[2, 8, 0, 0, 0]), (6, 5, 13));
        assert_eq!(of(part, &i2c, &[2, 7, 2, 0, 0]), (10, 5, 14));
        assert_eq!(of(part, &i2c, &[2, 8, 2, 0, 0]), (6, 5, 13));
        assert_eq!(of(part, &i2c, &[4, 8]), (6, 5, 13));
        assert_eq!(of(part, &i2c, &[5, 3]), (11, 5, 13));
        assert_eq!(of(part, &i2c, &[4, 7]), (7, 5, 12));
    }
}

/// The first run ends by its quota, the second at a bad field: the offsets add up to that field's.
#[test]
fn a_bad_field_in_the_second_run() {
    let spi: [(&[u8], u8); 3] = [(&[1, 32], 6), (&[4, 99], 6), (&[5, 255], 11)];
    for (event, number) in spi {
        let trace = [&[1, 25, 4, 24, 4, 26], event].concat();
        let (_, mut model) = Model::make(1, 0, 0);
        assert_eq!(run(&mut model, &trace, 2), (0, 2, 4));
        assert_eq!(run(&mut model, &trace[4..], 2), (number, 1, 3));
        let (_, mut whole) = Model::make(1, 0, 0);
        assert_eq!(run(&mut whole, &trace, 4), (number, 3, 7));
        assert_eq!(whole, model);
    }
    let trace = [2, 3, 0, 0, 0, 4, 1, 3, 2, 7, 0, 0x20, 0];
    let (_, mut model) = Model::make(3, 0, 0);
    assert_eq!(run(&mut model, &trace, 2), (0, 2, 7));
    assert_eq!(run(&mut model, &trace[7..], 9), (10, 1, 3));
    let (_, mut whole) = Model::make(3, 0, 0);
    assert_eq!(run(&mut whole, &trace, 11), (10, 3, 10));
    assert_eq!(whole, model);
}
