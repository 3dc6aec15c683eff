//! Ask 2 on the I2C parts: the flag of a sample whose WP differs from that of the sample before, if
//! the part lay between START and STOP before it.

#[path = "common/moves.rs"]
mod moves;

use moves::Moves;
use twin::part::i2c_pin::{SCL, SDA, WP};
use twin::text::first_memory;
use twin::trace::i2c_on;
use twin::{Model, LOW, NOTHING};

/// Both wires let go.
const HIGH: u8 = SCL | SDA;

/// A part that was powered with this sample, at rest.
fn powered(part: u32, sample: u8) -> Moves {
    let mut moves = Moves::of(part);
    moves.unwarned(&[&i2c_on(sample, 0x1ffe)]);
    moves
}

/// SDA falls with SCL high. At rest WP may move with it; the part lies between START and STOP from
/// here on.
fn start(moves: &mut Moves) {
    moves.samples(&[SDA, HIGH, SCL]);
    moves.still(true).samples(&[0]);
}

/// SDA rises with SCL high. Before this sample the part did not rest.
fn stop(moves: &mut Moves) {
    moves.samples(&[0, SCL, HIGH]).still(false);
}

/// A clock with this level of SDA.
fn clock(moves: &mut Moves, high: bool) {
    let sda = if high { SDA } else { 0 };
    moves.samples(&[sda, sda | SCL, sda]);
}

/// Eight bits and the ninth clock.
fn byte(moves: &mut Moves, byte: u8, ninth: bool) {
    for place in (0..8).rev() {
        clock(moves, byte >> place & 1 != 0);
    }
    clock(moves, ninth);
}

/// Bytes that the part acknowledges, or that it is deaf to.
fn bytes(moves: &mut Moves, bytes: &[u8]) {
    bytes.iter().for_each(|&each| byte(moves, each, true));
}

/// Clocks, changes of SDA, both wires in one sample, and a STOP without a START.
#[test]
fn at_rest_after_power_on() {
    for (part, first) in [3, 4]
        .map(|part| (0..4).map(move |first| (part, first)))
        .into_iter()
        .flatten()
    {
        let mut moves = powered(part, first);
        // SCL falls, or was low.
        moves.samples(&[first & SDA, 0, SDA, 0, SCL, HIGH, HIGH]);
        bytes(&mut moves, &[0xa0]);
        moves.samples(&[HIGH, 0, HIGH, 0]);
        moves.check();
    }
}

/// Neither at the START nor after the STOP, but at each sample in between and at the STOP: of a write
/// with its word, its addresses and two data bytes.
#[test]
fn between_start_and_stop() {
    for part in [3, 4] {
        let mut moves = powered(part, HIGH);
        moves.samples(&[HIGH]);
        start(&mut moves);
        bytes(&mut moves, &[0xa0, 0x12, 0x34, 0x56, 0x78]);
        stop(&mut moves);
        moves.samples(&[HIGH, SDA, 0, SCL, HIGH]);
        start(&mut moves);
        stop(&mut moves);
        moves.samples(&[HIGH]);
        moves.check();
    }
}

/// A START between START and STOP has it too: after a write word, in mid byte, and at once.
#[test]
fn another_start() {
    for part in [3, 4] {
        let mut moves = powered(part, HIGH);
        start(&mut moves);
        bytes(&mut moves, &[0xa0, 0x00, 0x01]);
        start(&mut moves);
        byte(&mut moves, 0xa1, true);
        clock(&mut moves, true);
        start(&mut moves);
        start(&mut moves);
        bytes(&mut moves, &[0xa0]);
        clock(&mut moves, true);
        stop(&mut moves);
        moves.samples(&[HIGH]);
        moves.check();
    }
}

/// A read with the master's low, then its high, after which the part is deaf up to the STOP or to
/// another START.
#[test]
fn a_read_and_after_its_end() {
    for part in [3, 4] {
        let mut moves = powered(part, HIGH);
        start(&mut moves);
        bytes(&mut moves, &[0xa1]);
        byte(&mut moves, 0xff, false);
        byte(&mut moves, 0xff, true);
        bytes(&mut moves, &[0x00, 0xa0]);
        start(&mut moves);
        bytes(&mut moves, &[0xa1, 0xff, 0x55]);
        stop(&mut moves);
        moves.samples(&[HIGH, SDA]);
        moves.check();
    }
}

/// Words that are not the part's: of HS mode, F8h, other pins, another code.
#[test]
fn deaf_after_another_word() {
    for (part, others) in [(3, [0x08, 0xf8, 0xa2, 0xb0]), (4, [0x0f, 0xf8, 0xa4, 0x21])] {
        for word in others {
            let mut moves = powered(part, HIGH);
            start(&mut moves);
            bytes(&mut moves, &[word, 0xa0]);
            start(&mut moves);
            bytes(&mut moves, &[word, 0x00]);
            stop(&mut moves);
            bytes(&mut moves, &[word]);
            moves.check();
        }
    }
}

/// While the part pulls, SDA let go by the others is no STOP, and pulled again no START.
#[test]
fn the_part_pulls() {
    for part in [3, 4] {
        let mut moves = powered(part, HIGH);
        start(&mut moves);
        for place in (0..8).rev() {
            clock(&mut moves, 0xa0 >> place & 1 != 0);
        }
        let pulls: [&[u8]; 1] = [&[5, LOW]];
        moves.samples(&[0, SCL]).unwarned(&pulls);
        moves.samples(&[HIGH, SCL, HIGH, SDA]);
        bytes(&mut moves, &[0x00, 0x02, 0x11]);
        stop(&mut moves);
        moves.samples(&[HIGH]);
        moves.check();
    }
}

/// A 05 is no sample and has no flag: the sample before stays the one before it.
#[test]
fn expected_answers_in_between() {
    let expected: [&[u8]; 2] = [&[5, NOTHING], &[5, NOTHING]];
    for part in [3, 4] {
        let mut moves = powered(part, HIGH);
        moves.unwarned(&expected).samples(&[HIGH]);
        moves.unwarned(&expected).samples(&[SCL]);
        moves.still(true);
        for sample in [SCL, 0, SDA, HIGH, SDA, 0, SCL] {
            moves.unwarned(&expected).samples(&[sample]);
        }
        moves.unwarned(&expected).samples(&[HIGH]);
        moves.still(false).unwarned(&expected).samples(&[HIGH]);
        moves.check();
    }
}

/// Power events have no flag, and after a cut the part rests.
#[test]
fn power_events() {
    for part in [3, 4] {
        let mut moves = powered(part, HIGH);
        start(&mut moves);
        bytes(&mut moves, &[0xa0]);
        moves.off().unwarned(&[&i2c_on(0, 1)]);
        moves.samples(&[0, SDA, SCL, HIGH]);
        start(&mut moves);
        moves.off().unwarned(&[&i2c_on(SCL, 1)]);
        // SDA rises with SCL high: a STOP that ends nothing.
        moves.samples(&[SCL, HIGH, HIGH]);
        start(&mut moves);
        stop(&mut moves);
        moves.check();
    }
}

/// A refused event has no flag, though its sample has WP moved, and the sample before stays.
#[test]
fn refused_events() {
    let refused: [(&[u8], u8); 8] = [
        (&[4], 5),
        (&[4, WP | 8], 6),
        (&[2, WP, 0, 0, 0], 8),
        (&[2, WP | 8, 0, 0, 0], 6),
        (&[2, WP, 2, 0, 0], 10),
        (&[5, 0], 9),
        (&[5, 3], 11),
        (&[1, WP], 4),
    ];
    for part in [3, 4] {
        let (_, mut model) = Model::make(part, 0, 0);
        let mut memory = first_memory(model.part().size);
        assert_eq!(model.event(&[4, WP], &mut memory), (7, 2, false));
        for event in [&i2c_on(HIGH, 0)[..], &[4, SCL], &[4, 0]] {
            assert_eq!(model.event(event, &mut memory), (0, 2, false));
        }
        for (event, number) in refused {
            assert_eq!(model.event(event, &mut memory), (number, 2, false));
            let same = model.clone().event(&[4, 0], &mut memory);
            assert_eq!(same, (0, 2, false), "after {event:?}");
            let other = model.clone().event(&[4, WP], &mut memory);
            assert_eq!(other, (0, 2, true), "after {event:?}");
        }
        assert_eq!(model.event(&[4, WP], &mut memory[1..]), (3, 2, false));
        assert_eq!(model.event(&[3], &mut memory), (0, 2, false));
        assert_eq!(model.event(&[4, WP], &mut memory), (7, 2, false));
    }
}
