//! SPI: the flag is for a move of WP# with CS# 0 in the sample before and in this one, whatever the
//! part makes of the selection.

use super::{flagged, moved, Story, NONE};
use crate::script::Script;
use twin::part::spi_pin::{CS, HOLD, SCK, SI, WP};

/// From power on with CS#, WP# and HOLD# high.
pub(super) const STORIES: &[Story] = &[
    ("WP# falls in the sample after the fall of CS#", |it| {
        it.select();
        flagged(moves(it, 0))
    }),
    ("WP# rises in a selection that began with it low", |it| {
        it.others = HOLD;
        it.command(&[6]);
        it.select();
        flagged(moves(it, 0))
    }),
    (
        "WP# falls in the last sample before the rise of CS#",
        |it| {
            it.select();
            it.byte(6);
            let place = moves(it, 0);
            it.sample(CS);
            flagged(place)
        },
    ),
    ("WP# moves with a rise of SCK", |it| {
        it.select();
        flagged(moves(it, SCK | SI))
    }),
    ("WP# moves with a fall of SCK", |it| {
        it.select();
        it.bit(true);
        flagged(moves(it, 0))
    }),
    ("WP# moves while the status is shown", |it| {
        it.select();
        it.byte(5);
        let place = moves(it, 0);
        it.byte(0);
        flagged(place)
    }),
    ("WP# moves while held", |it| {
        it.select();
        it.others &= !HOLD;
        it.sample(0);
        flagged(moves(it, 0))
    }),
    ("WP# moves as HOLD# falls", |it| {
        it.select();
        it.others &= !HOLD;
        flagged(moves(it, 0))
    }),
    ("WP# moves as HOLD# rises", |it| {
        it.others &= !HOLD;
        it.select();
        it.others |= HOLD;
        flagged(moves(it, 0))
    }),
    ("WP# moves after a code that no part has", |it| {
        it.select();
        it.byte(0xff);
        flagged(moves(it, 0))
    }),
    ("WP# moves in the selection after SLEEP", |it| {
        it.command(&[0xb9]);
        it.select();
        flagged(moves(it, 0))
    }),
    ("CS# 0 at power on, whose sample has another WP#", |it| {
        it.power_off();
        it.event(&[1, WP | HOLD]);
        flagged(moves(it, 0))
    }),
    ("expected answers between the two samples", |it| {
        it.select();
        it.event(&[5, 2]);
        it.event(&[5, 2]);
        let place = moves(it, 0);
        it.event(&[5, 2]);
        flagged(place)
    }),
    ("WP# moves there and back", |it| {
        it.select();
        let place = moves(it, 0);
        moves(it, 0);
        flagged(place)
    }),
    ("WP# moves in two selections", |it| {
        it.select();
        let place = moves(it, 0);
        it.sample(CS);
        it.select();
        moves(it, 0);
        flagged(place)
    }),
    (
        "WP# moves at rest, with both edges of CS#, and then within",
        |it| {
            moves(it, CS);
            moves(it, 0);
            moves(it, CS);
            it.select();
            flagged(moves(it, 0))
        },
    ),
    (
        "WP# moves within; then power off, power on, and again",
        |it| {
            it.select();
            let place = moves(it, 0);
            it.power_off();
            it.spi_on();
            it.select();
            moves(it, 0);
            flagged(place)
        },
    ),
    ("WP# moves, and then comes a sample of 32", |it| {
        it.select();
        let place = moves(it, 0);
        it.event(&[4, 32]);
        (6, Some(place))
    }),
    ("WP# stays, and every other wire moves", |it| {
        it.select();
        it.bytes(&[6, 0xa5]);
        it.others &= !HOLD;
        it.sample(SCK);
        it.sample(SI);
        it.others |= HOLD;
        it.deselect();
        it.ask_status();
        NONE
    }),
    ("WP# falls with CS#", |it| {
        moves(it, 0);
        it.byte(6);
        it.deselect();
        NONE
    }),
    ("WP# falls as CS# rises", |it| {
        it.select();
        it.byte(6);
        it.sample(0);
        moves(it, CS);
        NONE
    }),
    ("WP# moves between two selections", |it| {
        it.command(&[6]);
        moves(it, CS);
        moves(it, CS);
        moves(it, CS);
        it.command(&[5, 0]);
        NONE
    }),
    (
        "CS# rises for one sample, and WP# moves as it falls again",
        |it| {
            it.select();
            it.sample(CS);
            moves(it, 0);
            NONE
        },
    ),
    ("WP# has moved over a power cut in a selection", |it| {
        it.select();
        it.power_off();
        it.event(&[1, HOLD]);
        it.others = HOLD;
        it.sample(0);
        NONE
    }),
    ("a sample of 32 and more that moves WP#", |it| {
        it.select();
        it.event(&[4, 32 | HOLD]);
        (6, None)
    }),
    ("a power on, under power, that moves WP#", |it| {
        it.select();
        it.event(&[1, HOLD]);
        (8, None)
    }),
    ("a move behind a refused expected answer", |it| {
        it.select();
        it.event(&[5, 0]);
        moves(it, 0);
        (9, None)
    }),
    ("a sample cut short", |it| {
        it.select();
        it.event(&[4]);
        (5, None)
    }),
];

/// A sample with the other level of WP#; its place.
fn moves(it: &mut Script, wires: u8) -> usize {
    moved(it, WP, wires)
}
