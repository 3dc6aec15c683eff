//! Ask 2 on the SPI parts: the flag of a sample whose WP# differs from that of the sample before,
//! with CS# 0 in both and nothing else needed.

#[path = "common/moves.rs"]
mod moves;

use moves::Moves;
use twin::part::spi_pin::{CS, HOLD, SCK, SI, WP};
use twin::pins::spelled;
use twin::text::first_memory;
use twin::{Model, NOTHING};

/// Neither selected nor held.
const FREE: u8 = CS | HOLD;
/// Selected, not held.
const SELECTED: u8 = HOLD;
/// Selected and held.
const HELD: u8 = 0;

/// A part that was powered with this sample.
fn powered(part: u32, sample: u8) -> Moves {
    let mut moves = Moves::of(part);
    moves.unwarned(&[&[1, sample]]);
    moves
}

/// CS# falls; from the next sample on WP# is to stand still.
fn select(moves: &mut Moves) {
    moves.still(false).samples(&[SELECTED]).still(true);
}

/// CS# rises, and with it WP# may move.
fn deselect(moves: &mut Moves) {
    moves.still(false).samples(&[FREE]);
}

/// Eight bits, each a rise with its SI and a fall.
fn byte(moves: &mut Moves, byte: u8) {
    for place in (0..8).rev() {
        let si = if byte >> place & 1 != 0 { SI } else { 0 };
        moves.samples(&[SELECTED | si | SCK, SELECTED | si]);
    }
}

/// A whole selection, with CS# high for one more sample.
fn command(moves: &mut Moves, bytes: &[u8]) {
    select(moves);
    bytes.iter().for_each(|&each| byte(moves, each));
    deselect(moves);
    moves.samples(&[FREE]);
}

/// Neither at the fall of CS# nor at its rise, but at each sample in between: of a write, of what
/// writes nothing, and of a code alone.
#[test]
fn within_a_selection() {
    for part in 0..3 {
        let mut moves = powered(part, FREE);
        moves.samples(&[FREE, FREE | SCK, FREE | SI]);
        command(&mut moves, &[0x06]);
        command(&mut moves, &[0x02, 0x00, 0x12, 0x34, 0x56]);
        command(&mut moves, &[0x05, 0x00]);
        command(&mut moves, &[0x03, 0x00, 0x00, 0x00, 0x00]);
        moves.check();
    }
}

/// As short as they come: nothing between fall and rise, one sample, and the same sample again.
#[test]
fn short_selections() {
    for part in 0..3 {
        let mut moves = powered(part, FREE);
        for between in [
            &[][..],
            &[SELECTED],
            &[SELECTED, SELECTED],
            &[SI, HOLD | SCK],
        ] {
            select(&mut moves);
            moves.samples(between);
            deselect(&mut moves);
        }
        moves.check();
    }
}

/// The hold begins and ends with a sample of its own, or with an edge of SCK.
#[test]
fn in_a_hold() {
    for part in 0..3 {
        let mut moves = powered(part, FREE);
        select(&mut moves);
        byte(&mut moves, 0x05);
        moves.samples(&[HELD, SCK, HELD, SI, HELD, SELECTED]);
        moves.samples(&[SCK, HELD, SELECTED | SCK, SELECTED, HELD]);
        // CS# rises in the hold, and falls in one.
        moves.still(false).samples(&[CS, FREE, CS, HELD]);
        moves.still(true).samples(&[HELD, SELECTED]);
        deselect(&mut moves);
        moves.check();
    }
}

/// The selection after SLEEP, in which the part is deaf, and the one after that.
#[test]
fn asleep() {
    let mut moves = powered(1, FREE);
    command(&mut moves, &[0xb9]);
    moves.samples(&[FREE | SCK]);
    command(&mut moves, &[0x05, 0x00]);
    command(&mut moves, &[0x05, 0x00]);
    moves.check();
}

/// RDID is unknown on part 0, SLEEP on parts 0 and 2, FFh on all.
#[test]
fn deaf_after_an_unknown_code() {
    for (part, code) in [
        (0, 0x9f),
        (0, 0xb9),
        (2, 0xb9),
        (0, 0xff),
        (1, 0xff),
        (2, 0xff),
    ] {
        let mut moves = powered(part, FREE);
        command(&mut moves, &[code, 0x06, 0x01]);
        moves.check();
    }
}

/// Deaf since power on, without a fall of CS#.
#[test]
fn cs_low_since_power_on() {
    for part in 0..3 {
        let mut moves = powered(part, SELECTED);
        moves.still(true);
        byte(&mut moves, 0x06);
        deselect(&mut moves);
        command(&mut moves, &[0x06]);
        moves.check();
        // The sample of the power on is the one before, whatever its other wires are.
        for first in [HELD, SCK, SI, HOLD] {
            let mut moves = powered(part, first);
            moves.still(true).samples(&[SELECTED, SI]);
            moves.check();
        }
    }
}

/// A 05 is no sample and has no flag: the sample before stays the one before it.
#[test]
fn expected_answers_in_between() {
    let expected: [&[u8]; 2] = [&[5, NOTHING], &[5, NOTHING]];
    for part in 0..3 {
        let mut moves = powered(part, FREE);
        moves.unwarned(&expected).samples(&[FREE]);
        moves.unwarned(&expected);
        select(&mut moves);
        for sample in [SELECTED, SELECTED | SCK, HELD, SELECTED] {
            moves.unwarned(&expected).samples(&[sample]);
        }
        moves.unwarned(&expected);
        deselect(&mut moves);
        moves.check();
        let mut moves = powered(part, SELECTED);
        moves.unwarned(&expected).still(true).samples(&[SELECTED]);
        moves.check();
    }
}

/// Power events have no flag, and what was before a cut does not count after it.
#[test]
fn power_events() {
    for part in 0..3 {
        let mut moves = powered(part, FREE);
        select(&mut moves);
        moves.samples(&[SELECTED, SELECTED | SCK]).off();
        moves.unwarned(&[&[1, SELECTED]]).still(true);
        moves.samples(&[SELECTED, SELECTED]).off();
        moves.unwarned(&[&[1, FREE]]).samples(&[FREE]).off();
        moves.unwarned(&[&[1, FREE]]);
        command(&mut moves, &[0x06]);
        moves.check();
    }
}

/// A refused event has no flag, though its sample has WP# moved, and the sample before stays.
#[test]
fn refused_events() {
    let moved = SELECTED ^ WP;
    let refused: [(&[u8], u8); 7] = [
        (&[4], 5),
        (&[4, moved | 32], 6),
        (&[1, moved], 8),
        (&[1, moved | 32], 6),
        (&[5, 1], 9),
        (&[5, 3], 11),
        (&[2, moved, 0, 0, 0], 4),
    ];
    for part in 0..3 {
        let (_, mut model) = Model::make(part, 0, 0);
        let mut memory = first_memory(model.part().size);
        assert_eq!(model.event(&[4, moved], &mut memory), (7, 2, false));
        assert_eq!(model.event(&[1, SELECTED], &mut memory), (0, 2, false));
        for (event, number) in refused {
            assert_eq!(model.event(event, &mut memory), (number, 2, false));
            let same = model.clone().event(&[4, SELECTED], &mut memory);
            assert_eq!(same, (0, 2, false), "after {event:?}");
            let other = model.clone().event(&[4, moved], &mut memory);
            assert_eq!(other, (0, 2, true), "after {event:?}");
        }
        assert_eq!(model.event(&[4, moved], &mut memory[1..]), (3, 2, false));
        assert_eq!(model.event(&[3], &mut memory), (0, 2, false));
        assert_eq!(model.event(&[4, moved], &mut memory), (7, 2, false));
    }
}

/// A selection as bytes ends with CS# 1, so that no sample after it has the flag before CS# has
/// fallen again; and it is the fall whose WP# counts then.
#[test]
fn after_a_selection_as_bytes() {
    for (part, wp) in [0, 1, 2].map(|part| [(part, 0), (part, WP)]).concat() {
        let (_, mut model) = Model::make(part, 0, 0);
        let mut memory = first_memory(model.part().size);
        model.event(&[1, FREE], &mut memory);
        let mut flag = |sample: u8| model.event(&[4, sample], &mut memory).2;
        assert!(!flag(SELECTED) && flag(SELECTED | WP) && !flag(FREE));
        let selected = model.select(wp != 0, &[0x05, 0], &mut [0; 2], &mut memory);
        assert_eq!(selected.number, 0);
        let mut flag = |sample: u8| model.event(&[4, sample], &mut memory).2;
        let fall = HOLD | wp ^ WP;
        assert!(!flag(fall) && !flag(fall | SCK) && flag(fall ^ WP));
    }
}

/// Nor has any of the samples that a selection as bytes stands for.
#[test]
fn a_selection_as_bytes_by_pins() {
    for part in 0..3 {
        let (_, mut model) = Model::make(part, 0, 0);
        let mut memory = first_memory(model.part().size);
        model.event(&[1, FREE], &mut memory);
        for wp in [false, true, true, false, false] {
            let trace = spelled(wp, &[0x06, 0xa5]);
            let ran = model.run_each(&trace, u64::MAX, &mut memory, |_| ());
            assert_eq!((ran.number, ran.flag), (0, trace.len() as u64));
        }
    }
}
