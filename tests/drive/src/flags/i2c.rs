//! I2C: the flag is for a move of WP in a sample before which the part lies between START and STOP,
//! deaf or not. The line decides what START and STOP are, and the sample's SDA is not all of it.

use super::{flagged, moved, Story, NONE};
use crate::script::Script;
use twin::part::i2c_pin::{SCL, SDA, WP};

/// The part's own write word, its read word, and another word.
const WRITE: u8 = 0xa0;
const READ: u8 = 0xa1;
const OTHER: u8 = 0x08;

/// From power on with SCL and SDA high and WP low.
pub(super) const STORIES: &[Story] = &[
    ("WP rises in the sample after START", |it| {
        it.start();
        flagged(moves(it, 0))
    }),
    ("WP rises with SCL high after START", |it| {
        it.start();
        flagged(moves(it, SCL))
    }),
    ("WP falls in a transfer that began with it high", |it| {
        moves(it, SCL | SDA);
        it.start();
        it.clock(true);
        flagged(moves(it, 0))
    }),
    ("START with the sample of power on before it", |it| {
        it.sample(SCL);
        flagged(moves(it, 0))
    }),
    ("WP moves in the word", |it| {
        it.start();
        it.clock(true);
        it.clock(false);
        flagged(moves(it, SDA))
    }),
    ("WP moves with the rise of an acknowledge", |it| {
        it.start();
        eight(it, WRITE);
        it.sample(SDA);
        flagged(moves(it, SDA | SCL))
    }),
    ("WP moves in an address byte", |it| {
        it.start();
        it.give(WRITE);
        it.clock(false);
        flagged(moves(it, 0))
    }),
    ("WP moves in a data byte", |it| {
        it.start();
        it.give_all(&[WRITE, 0, 0]);
        it.clock(true);
        let place = moves(it, 0);
        it.sample(SCL);
        flagged(place)
    }),
    ("WP moves with the ninth rise, which stores", |it| {
        moves(it, SCL | SDA);
        it.start();
        it.give_all(&[WRITE, 0, 0]);
        eight(it, 0x77);
        it.sample(SDA);
        flagged(moves(it, SDA | SCL))
    }),
    ("WP moves in a byte that is read", |it| {
        it.start();
        it.give(READ);
        it.clock(true);
        flagged(moves(it, SDA))
    }),
    ("WP moves after another word", |it| {
        it.start();
        it.give(OTHER);
        it.give(WRITE);
        flagged(moves(it, SDA))
    }),
    ("WP moves after the eighth bit of another word", |it| {
        it.start();
        eight(it, OTHER);
        flagged(moves(it, SDA))
    }),
    ("WP moves after a master's high", |it| {
        it.start();
        it.give(READ);
        it.take(false);
        it.clock(true);
        flagged(moves(it, SDA))
    }),
    ("WP moves in the sample of STOP", |it| {
        it.start();
        it.give(WRITE);
        it.sample(0);
        it.sample(SCL);
        flagged(moves(it, SCL | SDA))
    }),
    ("WP moves in the sample of a second START", |it| {
        it.start();
        it.sample(SDA);
        it.sample(SDA | SCL);
        flagged(moves(it, SCL))
    }),
    (
        "WP moves in the sample of a START after another word",
        |it| {
            it.start();
            it.give(OTHER);
            it.sample(SDA);
            it.sample(SDA | SCL);
            flagged(moves(it, SCL))
        },
    ),
    (
        "SDA rises with SCL high, but the part pulls: no STOP",
        |it| {
            it.start();
            eight(it, WRITE);
            it.sample(0);
            it.sample(SCL);
            it.sample(SCL | SDA);
            flagged(moves(it, SCL | SDA))
        },
    ),
    ("SDA rises with SCL: no STOP", |it| {
        it.start();
        it.sample(0);
        it.sample(SCL | SDA);
        flagged(moves(it, SCL | SDA))
    }),
    ("expected answers between the two samples", |it| {
        it.start();
        it.event(&[5, 2]);
        it.event(&[5, 2]);
        let place = moves(it, 0);
        it.event(&[5, 2]);
        flagged(place)
    }),
    ("WP moves there and back", |it| {
        it.start();
        let place = moves(it, 0);
        moves(it, 0);
        flagged(place)
    }),
    ("WP moves at rest, after STOP, and then within", |it| {
        moves(it, SCL | SDA);
        it.start();
        it.give(WRITE);
        it.stop();
        moves(it, SCL | SDA);
        it.start();
        flagged(moves(it, 0))
    }),
    (
        "WP moves within; then power off, power on, and again",
        |it| {
            it.start();
            let place = moves(it, 0);
            it.power_off();
            it.i2c_on(0);
            it.start();
            moves(it, 0);
            flagged(place)
        },
    ),
    ("WP moves, and then comes a sample of 8", |it| {
        it.start();
        let place = moves(it, 0);
        it.event(&[4, 8]);
        (6, Some(place))
    }),
    ("WP stays in a write and a read", |it| {
        it.start();
        it.give_all(&[WRITE, 1, 2, 3]);
        it.start();
        it.give(READ);
        it.take(true);
        it.take(false);
        it.stop();
        NONE
    }),
    ("WP moves at rest after power on, SCL and SDA too", |it| {
        moves(it, SCL | SDA);
        for bit in [true, false, true] {
            it.others ^= WP;
            it.clock(bit);
            moves(it, 0);
        }
        NONE
    }),
    ("WP moves at rest after STOP", |it| {
        it.start();
        it.give_all(&[WRITE, 1, 2, 3]);
        it.stop();
        moves(it, SCL | SDA);
        moves(it, SDA);
        NONE
    }),
    ("WP moves after a STOP in mid byte", |it| {
        it.start();
        it.clock(true);
        it.stop();
        moves(it, SCL | SDA);
        NONE
    }),
    ("WP moves after a STOP behind another word", |it| {
        it.start();
        it.give(OTHER);
        it.stop();
        moves(it, SCL | SDA);
        NONE
    }),
    ("WP moves after a STOP behind a master's high", |it| {
        it.start();
        it.give(READ);
        it.take(false);
        it.stop();
        moves(it, SCL | SDA);
        NONE
    }),
    ("WP moves in the sample of the first START", |it| {
        it.sample(SDA);
        it.sample(SDA | SCL);
        moves(it, SCL);
        it.give(WRITE);
        NONE
    }),
    ("power on with SCL high and SDA low is no START", |it| {
        it.power_off();
        it.event(&[2, SCL, 0, 0, 0]);
        moves(it, SCL);
        moves(it, SCL);
        NONE
    }),
    ("SDA falls with SCL: no START", |it| {
        it.sample(0);
        it.sample(SCL);
        moves(it, SCL);
        NONE
    }),
    (
        "WP has moved over a power cut in a transfer, and moves at rest",
        |it| {
            it.start();
            it.give(WRITE);
            it.power_off();
            it.event(&[2, SCL | SDA | WP, 0, 0, 0]);
            it.others = WP;
            it.sample(SCL | SDA);
            moves(it, SCL | SDA);
            NONE
        },
    ),
    ("a sample of 8 and more that moves WP", |it| {
        it.start();
        it.event(&[4, 8 | WP | SCL]);
        (6, None)
    }),
    ("a power on, under power, that moves WP", |it| {
        it.start();
        it.event(&[2, SCL | SDA | WP, 0, 0, 0]);
        (8, None)
    }),
    ("a move behind a refused expected answer", |it| {
        it.start();
        it.event(&[5, 0]);
        moves(it, 0);
        (9, None)
    }),
    ("a sample cut short", |it| {
        it.start();
        it.event(&[4]);
        (5, None)
    }),
];

/// A sample with the other level of WP; its place.
fn moves(it: &mut Script, wires: u8) -> usize {
    moved(it, WP, wires)
}

/// The eight bits of a byte, without its acknowledge.
fn eight(it: &mut Script, byte: u8) {
    for at in (0..8).rev() {
        it.clock(byte >> at & 1 != 0);
    }
}
