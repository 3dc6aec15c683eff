//! "Checked examples" 1 to 12, the programs, and some rules that the examples leave out.

mod common;

use common::Bus;
use twin::text::{first_byte, program};

#[test]
fn example_1() {
    let mut bus = Bus::spi(0, 0);
    bus.command(&[6]);
    assert_eq!(bus.status(), 0x02);
}

#[test]
fn example_2() {
    let mut bus = Bus::spi(0, 0);
    bus.command(&[6]);
    bus.command(&[1, 0xff]);
    assert_eq!(bus.status(), 0x8c);
    bus.others = 16;
    bus.command(&[6]);
    bus.command(&[1, 0]);
    assert_eq!(bus.status(), 0x8c);
    bus.others = 24;
    bus.command(&[6]);
    bus.command(&[1, 0]);
    assert_eq!(bus.status(), 0);
}

#[test]
fn example_3() {
    let mut bus = Bus::spi(0, 0);
    bus.command(&[6]);
    bus.command(&[1, 0x04]);
    bus.command(&[6]);
    bus.command(&[2, 0x0b, 0xff, 0xaa, 0xbb]);
    assert_eq!(
        (bus.memory[0xbff], bus.memory[0xc00]),
        (0xaa, first_byte(0xc00))
    );
}

#[test]
fn example_4() {
    let mut bus = Bus::spi(0, 0);
    bus.command(&[6]);
    bus.command(&[2, 0x0f, 0xff, 0x11, 0x22]);
    assert_eq!((bus.memory[0xfff], bus.memory[0]), (0x11, 0x22));
    assert_eq!(bus.ask(&[3, 0x0f, 0xff], 2), [Some(0x11), Some(0x22)]);
}

#[test]
fn example_5() {
    let mut bus = Bus::spi(0, 0);
    let first = bus.memory.clone();
    bus.command(&[2, 0, 5, 1, 2]);
    assert_eq!(bus.memory, first);
    bus.command(&[6]);
    bus.command(&[2, 0, 5, 1]);
    bus.command(&[2, 0, 6, 2]);
    assert_eq!((bus.memory[5], bus.memory[6]), (1, first[6]));
}

#[test]
fn example_6() {
    let mut bus = Bus::spi(0, 0);
    let first = bus.memory.clone();
    bus.select();
    bus.bits(&[0, 0, 0, 0, 0, 1, 1]);
    bus.deselect();
    assert_eq!(bus.status(), 0);
    bus.command(&[6]);
    bus.select();
    bus.bytes(&[2, 0, 0]);
    bus.bits(&[1; 7]);
    bus.deselect();
    assert_eq!((bus.status(), &bus.memory), (0x02, &first));
}

#[test]
fn example_7() {
    let mut bus = Bus::spi(0, 0);
    bus.command(&[6]);
    bus.select();
    bus.bytes(&[2, 0, 0, 0x77]);
    bus.bits(&[1; 5]);
    bus.event(&[3]);
    assert_eq!((bus.memory[0], bus.memory[1]), (0x77, first_byte(1)));
}

#[test]
fn example_8() {
    let mut bus = Bus::spi(1, 2);
    bus.command(&[6]);
    bus.command(&[2, 0, 0xff, 0xff, 0x55, 0x66]);
    assert_eq!(
        (bus.memory[0xffff], bus.memory[0x10000]),
        (0x55, first_byte(0x10000))
    );
}

#[test]
fn example_9() {
    let mut bus = Bus::spi(0, 0);
    bus.select();
    assert_eq!(bus.bytes(&[0x9f, 0, 0, 0, 0]), [2; 40]);
}

#[test]
fn example_10() {
    for (word, address) in [(0xa1, 0x10000), (0xa3, 0)] {
        let mut bus = Bus::i2c(4, 0, 0);
        bus.memory[0x10000] = 0x5a;
        bus.memory[0] = 0xa5;
        let expected = bus.memory[address];
        bus.start();
        assert!([0xa0, 0xff, 0xff, 0x99]
            .into_iter()
            .all(|byte| bus.give(byte)));
        bus.stop();
        assert_eq!(bus.memory[0xffff], 0x99);
        bus.start();
        assert!(bus.give(word));
        assert_eq!(bus.take(false), expected);
        bus.stop();
    }
}

#[test]
fn example_11() {
    let mut bus = Bus::i2c(3, 0, 0);
    bus.start();
    assert!(bus.give(0xa1));
    bus.take(false);
    bus.start();
    assert!(!bus.give(0xa3));
    bus.stop();
}

#[test]
fn example_12() {
    let mut bus = Bus::spi(2, 0);
    let shown = bus.ask(&[0x9f], 4);
    assert_eq!(shown, [Some(0xae), Some(0x83), Some(0x1a), None]);
    let mut bus = Bus::spi(1, 0);
    assert_eq!(bus.ask(&[0x9f], 3), [Some(0xae), Some(0x83), Some(0x09)]);
}

#[test]
fn programs() {
    assert_eq!(program(0, &[1, 0x19, 4, 0x18, 3]), "ZZZ\n0 3 5\n");
    assert_eq!(program(0, &[4, 0x18]), "7 0 0\n");
    assert_eq!(program(0, &[]), "0 0 0\n");
    assert_eq!(program(3, &[]), "0 0 0\n");
    assert_eq!(program(3, &[2, 3, 0, 0, 0, 4, 3]), "ZZ\n0 2 7\n");
    assert_eq!(program(0, &[1, 0x19, 4, 0x20]), "Z\n6 1 3\n");
    assert_eq!(program(3, &[2, 3, 0, 0x20, 0]), "10 0 2\n");
    assert_eq!(program(0, &[5, 3]), "11 0 1\n");
    assert_eq!(program(0, &[0; 65_536]), "4 0 0\n");
    assert_eq!(program(0, &[0; 65_537]), "too long\n");
    let full: Vec<u8> = [1, 25].into_iter().chain([4, 25].repeat(63)).collect();
    assert_eq!(program(0, &full), format!("{}\n0 64 128\n", "Z".repeat(64)));
}

#[test]
fn sleep_makes_one_selection_ignored_and_keeps_wel() {
    let mut bus = Bus::spi(1, 0);
    bus.command(&[6]);
    bus.command(&[0xb9, 1, 2]);
    assert_eq!(bus.ask(&[5], 1), [None]);
    assert_eq!(bus.status(), 2);
    bus.command(&[0xb9]);
    bus.event(&[3]);
    bus.event(&[1, 25]);
    assert_eq!(bus.status(), 0);
}

#[test]
fn fast_read_has_a_dummy_byte() {
    let mut bus = Bus::spi(1, 0);
    let expected = [Some(first_byte(0x1ffff)), Some(first_byte(0))];
    assert_eq!(bus.ask(&[0x0b, 0x01, 0xff, 0xff, 0xee], 2), expected);
    let mut bus = Bus::spi(2, 0);
    assert_eq!(bus.ask(&[0x0b, 0, 0, 0, 0], 1), [None]);
}

#[test]
fn a_hold_shows_the_earlier_bit_again() {
    let mut bus = Bus::spi(0, 0);
    bus.memory[0] = 0x80;
    bus.select();
    assert_eq!(bus.bytes(&[3, 0, 0])[23], 1);
    for (sample, answer) in [(8, 2), (10, 2), (8, 2), (24, 1), (26, 1), (24, 0)] {
        assert_eq!(bus.event(&[4, sample]), answer);
    }
}

#[test]
fn saved_bits_by_part() {
    for (part, kept) in [(0, 0), (1, 7), (2, 7)] {
        let mut bus = Bus::spi(part, 0);
        bus.command(&[6]);
        bus.command(&[1, 0xff]);
        assert_eq!(bus.model.bits(), 7);
        bus.event(&[3]);
        assert_eq!(bus.model.bits(), kept);
    }
}

/// WREN, and a WRITE of two bytes over a starting point, the first to the address before it (the top
/// if the point is 0). What lies below the point is stored, what lies from it on is not, and no other
/// address changes.
fn write_over(bus: &mut Bus, from: usize, about: &str) {
    let table = bus.model.part();
    let before = (from + table.size - 1) % table.size;
    let mut expected = bus.memory.clone();
    let mut input = table.addressed(2, before);
    for address in [before, from % table.size] {
        // Another byte than is there, so that it shows whether it is stored.
        let byte = !expected[address];
        input.push(byte);
        if address < from {
            expected[address] = byte;
        }
    }
    bus.command(&[6]);
    bus.command(&input);
    assert!(bus.memory == expected, "{about}");
}

/// The twelve starting points of the protected ranges, the size itself for 00.
#[test]
fn protected_ranges() {
    let starts = [
        (0, [0x1000, 0xc00, 0x800, 0]),
        (1, [0x20000, 0x18000, 0x10000, 0]),
        (2, [0x40000, 0x30000, 0x20000, 0]),
    ];
    for (part, starts) in starts {
        for (bp, from) in (0..).zip(starts) {
            let mut bus = Bus::spi(part, 0);
            assert_eq!(starts[0], bus.memory.len());
            bus.command(&[6]);
            bus.command(&[1, bp << 2]);
            write_over(&mut bus, from, &format!("part {part} BP {bp:02b}"));
        }
    }
}

/// The first of two data bytes counts; with WEL 0, or WP# 0 and SRWD 1, nothing is taken.
#[test]
fn status_writes() {
    let mut bus = Bus::spi(1, 0);
    bus.command(&[1, 0xff]);
    assert_eq!(bus.status(), 0);
    bus.others = 16;
    bus.command(&[6]);
    bus.command(&[1, 0x88, 0x04]);
    assert_eq!(bus.status(), 0x88);
    bus.command(&[6]);
    bus.command(&[1]);
    assert_eq!(bus.status(), 0x8a);
    bus.command(&[1, 0]);
    assert_eq!(bus.status(), 0x88);
}

#[test]
fn power_on_selected_ignores_the_bus() {
    let mut bus = Bus::make(0, 0, 0);
    bus.others = 24;
    bus.event(&[1, 24]);
    assert_eq!(bus.bytes(&[5, 0]), [2; 16]);
    bus.deselect();
    assert_eq!(bus.status(), 0);
}

#[test]
fn write_protect_of_i2c_drops_but_goes_on() {
    let mut bus = Bus::i2c(3, 5, 0);
    bus.others = 4;
    bus.start();
    assert!([0xaa, 0x1f, 0xff, 0x12]
        .into_iter()
        .all(|byte| bus.give(byte)));
    bus.others = 0;
    assert!(bus.give(0x34));
    bus.stop();
    assert_eq!(
        (bus.memory[0x1fff], bus.memory[0]),
        (first_byte(0x1fff), 0x34)
    );
    bus.start();
    assert!(bus.give(0xab));
    assert_eq!(
        [bus.take(true), bus.take(false)],
        [first_byte(1), first_byte(2)]
    );
}

#[test]
fn reads_from_the_start_address_and_after_a_dummy_write() {
    let mut bus = Bus::i2c(4, 3, 0x1fffe);
    bus.start();
    assert!(bus.give(0xaf));
    assert_eq!(
        [bus.take(true), bus.take(true), bus.take(false)],
        [first_byte(0x1fffe), first_byte(0x1ffff), first_byte(0),]
    );
    bus.start();
    assert!([0xac, 0x12, 0x34].into_iter().all(|byte| bus.give(byte)));
    bus.start();
    assert!(bus.give(0xaf));
    assert_eq!(bus.take(false), first_byte(0x11234));
    bus.stop();
}
