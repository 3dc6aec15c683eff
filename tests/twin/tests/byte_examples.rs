//! What selections as bytes give, in figures, with the checked examples among them.

mod common;

use common::Bus;
use twin::pins::spelled;
use twin::text::first_byte;

/// A selection that must be accepted, with WP# high: first, count and the bytes.
fn select(bus: &mut Bus, input: &[u8]) -> (u64, u64, Vec<u8>) {
    select_with(bus, true, input)
}

fn select_with(bus: &mut Bus, wp: bool, input: &[u8]) -> (u64, u64, Vec<u8>) {
    let mut output = vec![0xcc; input.len()];
    let selected = bus.model.select(wp, input, &mut output, &mut bus.memory);
    assert_eq!(selected.number, 0);
    (selected.first, selected.count, output)
}

#[test]
fn wren_shows_in_the_status() {
    let mut bus = Bus::spi(0, 0);
    assert_eq!(select(&mut bus, &[6]), (1, 0, vec![0xff]));
    assert_eq!(select(&mut bus, &[5, 0, 9]), (1, 2, vec![0xff, 2, 2]));
    assert_eq!(select(&mut bus, &[4, 1]), (2, 0, vec![0xff, 0xff]));
    assert_eq!(select(&mut bus, &[5]), (1, 0, vec![0xff]));
    assert_eq!(select(&mut bus, &[5, 0]), (1, 1, vec![0xff, 0]));
}

#[test]
fn srwd_locks_with_wp_low() {
    let mut bus = Bus::spi(0, 0);
    let status = |bus: &mut Bus| select(bus, &[5, 0]).2[1];
    select_with(&mut bus, false, &[6]);
    select_with(&mut bus, false, &[1, 0xff, 0]);
    assert_eq!(status(&mut bus), 0x8c);
    select(&mut bus, &[6]);
    select_with(&mut bus, false, &[1, 0]);
    assert_eq!(status(&mut bus), 0x8c);
    select(&mut bus, &[6]);
    select(&mut bus, &[1]);
    assert_eq!(status(&mut bus), 0x8e);
    select(&mut bus, &[1, 0]);
    assert_eq!(status(&mut bus), 0);
}

#[test]
fn a_write_stops_at_what_is_protected() {
    let mut bus = Bus::spi(0, 0);
    select(&mut bus, &[6]);
    select(&mut bus, &[1, 4]);
    select(&mut bus, &[6]);
    let nothing = (5, 0, vec![0xff; 5]);
    assert_eq!(select(&mut bus, &[2, 0x0b, 0xff, 0xaa, 0xbb]), nothing);
    let cells = [bus.memory[0xbff], bus.memory[0xc00]];
    assert_eq!(cells, [0xaa, first_byte(0xc00)]);
    assert_eq!(select(&mut bus, &[5, 0]).2[1], 4);
}

#[test]
fn writes_and_reads_roll_over() {
    let mut bus = Bus::spi(0, 0);
    select(&mut bus, &[2, 0x0f, 0xff, 1, 2]);
    let as_before = [first_byte(0xfff), first_byte(0)];
    assert_eq!([bus.memory[0xfff], bus.memory[0]], as_before);
    select(&mut bus, &[6]);
    // 2FFFh counts as FFFh.
    select(&mut bus, &[2, 0x2f, 0xff, 0x11, 0x22]);
    assert_eq!([bus.memory[0xfff], bus.memory[0]], [0x11, 0x22]);
    let (first, count, shown) = select(&mut bus, &[3, 0x0f, 0xff, 0, 0, 0]);
    assert_eq!((first, count), (3, 3));
    assert_eq!(shown, [0xff, 0xff, 0xff, 0x11, 0x22, first_byte(1)]);
    assert_eq!(select(&mut bus, &[3, 0x0f, 0xff]), (3, 0, vec![0xff; 3]));
}

#[test]
fn an_address_alone_keeps_the_enable() {
    let mut bus = Bus::spi(2, 0);
    select(&mut bus, &[6]);
    select(&mut bus, &[2, 0, 0, 0]);
    assert_eq!(select(&mut bus, &[5, 0]).2[1], 2);
    select(&mut bus, &[2, 0, 0, 0, 0x77]);
    assert_eq!(select(&mut bus, &[5, 0]).2[1], 0);
    assert_eq!(bus.memory[0], 0x77);
}

#[test]
fn block_bits_of_part_1() {
    let mut bus = Bus::spi(1, 2);
    select(&mut bus, &[6]);
    select(&mut bus, &[2, 0, 0xff, 0xff, 0x11, 0x22]);
    let cells = [bus.memory[0xffff], bus.memory[0x10000]];
    assert_eq!(cells, [0x11, first_byte(0x10000)]);
    let (first, count, shown) = select(&mut bus, &[0x0b, 0, 0xff, 0xff, 0, 0, 0]);
    assert_eq!((first, count), (5, 2));
    assert_eq!(shown[5..], [0x11, first_byte(0x10000)]);
}

#[test]
fn identities() {
    let asked = [0x9f, 0, 0, 0, 0, 0];
    let shown = |part| select(&mut Bus::spi(part, 0), &asked);
    assert_eq!(shown(0), (6, 0, vec![0xff; 6]));
    let known = |last| (1, 3, vec![0xff, 0xae, 0x83, last, 0xff, 0xff]);
    assert_eq!(shown(1), known(0x09));
    assert_eq!(shown(2), known(0x1a));
    let short = select(&mut Bus::spi(2, 0), &asked[..3]);
    assert_eq!(short, (1, 2, vec![0xff, 0xae, 0x83]));
}

#[test]
fn the_selection_after_sleep_is_deaf() {
    for wakes in [[].as_slice(), &[5, 0], &[0xb9], &[4]] {
        let mut bus = Bus::spi(1, 0);
        select(&mut bus, &[6]);
        select(&mut bus, &[0xb9, 0]);
        let length = wakes.len();
        let nothing = (length as u64, 0, vec![0xff; length]);
        assert_eq!(select(&mut bus, wakes), nothing);
        assert_eq!(select(&mut bus, &[5, 0]), (1, 1, vec![0xff, 2]));
    }
}

/// The samples by their numbers: CS# 1, SCK 2, SI 4, WP# 8, HOLD# 16.
#[test]
fn how_selections_are_spelled() {
    let samples = |wp, input: &[u8]| -> Vec<u8> {
        let trace = spelled(wp, input);
        assert!(trace.chunks(2).all(|event| event[0] == 4));
        trace.chunks(2).map(|event| event[1]).collect()
    };
    assert_eq!(samples(true, &[]), [24, 25]);
    assert_eq!(samples(false, &[]), [16, 17]);
    let ones = [22, 20];
    let zeros = [18, 16];
    let five = [zeros, zeros, zeros, zeros, zeros, ones, zeros, ones].concat();
    let two = [zeros, zeros, zeros, zeros, zeros, zeros, ones, zeros].concat();
    assert_eq!(samples(false, &[5]), [&[16], &five[..], &[21]].concat());
    let both = [&[16], &five[..], &two[..], &[17]].concat();
    assert_eq!(samples(false, &[5, 2]), both);
    let high: Vec<u8> = both.iter().map(|sample| sample + 8).collect();
    assert_eq!(samples(true, &[5, 2]), high);
}

/// The samples of pins after a selection go on from its last one: SI kept, SCK low, CS# 1.
#[test]
fn pins_after_bytes() {
    let mut bus = Bus::spi(0, 0);
    select(&mut bus, &[6]);
    assert_eq!(bus.event(&[5, 2]), 2);
    assert_eq!(bus.status(), 2);
    let mut other = Bus::spi(0, 0);
    other.command(&[6]);
    select(&mut other, &[5, 1]);
    select(&mut bus, &[5, 1]);
    assert_eq!(bus.model, other.model);
}
