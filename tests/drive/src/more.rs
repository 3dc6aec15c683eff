//! The traces of tests/vectors/more.txt. Each shows a rule of document 01 or of ask 1 that a wrong
//! model could break and still pass the generated vectors of base.txt and fields.txt, which seldom
//! get there.

mod fields;

use crate::script::{addressed, Script};
use std::fmt::Write;
use twin::part::spi_pin;
use twin::text::Line;
use twin::PARTS;

const WREN: u8 = 0x06;
const WRSR: u8 = 0x01;
const WRITE: u8 = 0x02;

/// The numbers of the SPI parts.
const SPI: std::ops::Range<u32> = 0..3;

/// A trace and what it shows.
#[derive(Clone)]
struct Shown {
    what: String,
    part: u32,
    bits: u32,
    trace: Vec<u8>,
}

/// The file as it is to be.
pub fn text() -> String {
    let mut text = String::from(
        "# Traces made by hand, each with what it shows, in the format of base.txt. Written by\n\
         # `cargo run --offline --release --bin more` in tests/drive, whose src/more.rs has the traces.\n",
    );
    for shown in all() {
        let line = Line::play(shown.part, 0, shown.bits, &shown.trace);
        writeln!(text, "# {}\n{line}", shown.what).expect("a String takes any text");
    }
    text
}

fn all() -> Vec<Shown> {
    [
        writes_without_a_whole_byte(),
        status_writes_without_a_whole_byte(),
        two_status_bytes(),
        write_protect_alone(),
        write_protect_with_srwd(),
        write_protect_as_cs_rises(),
        bits_over_a_cut(),
        borders(),
        fields::all(),
    ]
    .concat()
}

/// A SPI part made with these bits, under power, that is then driven as told.
fn shown(what: &str, part: u32, bits: u32, drive: impl FnOnce(&mut Script)) -> Shown {
    let mut script = Script::spi();
    drive(&mut script);
    let name = PARTS[part as usize].name;
    Shown {
        what: format!("{name}: {what}"),
        part,
        bits,
        trace: script.into_trace(),
    }
}

/// WEL stays 1, so that the next WRITE stores.
fn writes_without_a_whole_byte() -> Vec<Shown> {
    let whats = [
        (1, 0, "WREN, the code of a WRITE alone"),
        (9, 0, "WREN, a WRITE with its address alone"),
        (9, 7, "WREN, a WRITE of seven data bits"),
    ];
    let of_part = |part| {
        whats.map(|(head, ones, what)| {
            let what = format!("{what}: WEL stays 1, and the next WRITE stores");
            let sent = addressed(part, WRITE, 0x123);
            let next = addressed(part, WRITE, 0x456);
            shown(&what, part, 0, |script| {
                script.command(&[WREN]);
                script.command_and_ones(&sent[..head.min(sent.len())], ones);
                script.ask_status();
                script.command(&[&next[..], &[0x77]].concat());
                script.ask_status();
            })
        })
    };
    SPI.flat_map(of_part).collect()
}

/// Neither are bits taken nor is WEL cleared.
fn status_writes_without_a_whole_byte() -> Vec<Shown> {
    let of_part = |part| {
        [(0, "the code of a WRSR alone"), (7, "a WRSR of seven ones")].map(|(ones, what)| {
            let what = format!("WREN, {what}: the bits stay 0 and WEL stays 1");
            shown(&what, part, 0, |script| {
                script.command(&[WREN]);
                script.command_and_ones(&[WRSR], ones);
                script.ask_status();
            })
        })
    };
    SPI.flat_map(of_part).collect()
}

fn two_status_bytes() -> Vec<Shown> {
    let what = "WREN, WRSR 84h 08h: the first byte is taken";
    let of_part = |part| {
        shown(what, part, 0, |script| {
            script.command(&[WREN]);
            script.command(&[WRSR, 0x84, 0x08]);
            script.ask_status();
        })
    };
    SPI.map(of_part).collect()
}

/// WP# low without SRWD protects neither the status nor the memory.
fn write_protect_alone() -> Vec<Shown> {
    let what = "WP# 0 and SRWD 0: a WRITE stores, and WRSR 8Ch is taken";
    let of_part = |part| {
        shown(what, part, 0, |script| {
            script.others = spi_pin::HOLD;
            script.command(&[WREN]);
            script.command(&[&addressed(part, WRITE, 0x123)[..], &[0x77]].concat());
            script.command(&[WREN]);
            script.command(&[WRSR, 0x8c]);
            script.ask_status();
        })
    };
    SPI.map(of_part).collect()
}

fn write_protect_with_srwd() -> Vec<Shown> {
    let what = "SRWD 1: WRSR 04h with WP# 0 is not taken and clears WEL; with WP# 1 it is taken";
    let of_part = |part| {
        shown(what, part, 0, |script| {
            script.command(&[WREN]);
            script.command(&[WRSR, 0x80]);
            script.others = spi_pin::HOLD;
            script.command(&[WREN]);
            script.command(&[WRSR, 0x04]);
            script.ask_status();
            script.others |= spi_pin::WP;
            script.command(&[WREN]);
            script.command(&[WRSR, 0x04]);
            script.ask_status();
        })
    };
    SPI.map(of_part).collect()
}

fn write_protect_as_cs_rises() -> Vec<Shown> {
    let whats = [
        (0, spi_pin::WP, "WP# 0 until it rises with CS#: taken"),
        (
            spi_pin::WP,
            0,
            "WP# 1 until it falls as CS# rises: not taken",
        ),
    ];
    let of_making = |(before, then, what)| {
        let what = format!("SRWD 1, WRSR 0Ch, {what}");
        shown(&what, 1, 4, |script| {
            script.command(&[WREN]);
            script.others = spi_pin::HOLD | before;
            script.select();
            script.bytes(&[WRSR, 0x0c]);
            script.event(&[4, spi_pin::CS | spi_pin::HOLD | then]);
            script.ask_status();
        })
    };
    whats.map(of_making).into()
}

fn bits_over_a_cut() -> Vec<Shown> {
    let of_part = |part| {
        let kept = if part == 0 { "lost" } else { "kept" };
        let what = format!("WREN, WRSR 8Ch, power off and on: the bits are {kept}");
        shown(&what, part, 0, |script| {
            script.command(&[WREN]);
            script.command(&[WRSR, 0x8c]);
            script.power_off();
            script.spi_on();
            script.ask_status();
        })
    };
    SPI.map(of_part).collect()
}

/// Two bytes over each of the twelve starting points: one below it, one at it.
fn borders() -> Vec<Shown> {
    let of_part = |part| (0..4).map(move |bp| border(part, bp));
    SPI.flat_map(of_part).collect()
}

/// Part 0 gets its bits by WRSR, the others at their making.
fn border(part: u32, bp: u8) -> Shown {
    let table = &PARTS[part as usize];
    let from = table.protected_from(bp);
    let below = (from + table.size - 1) % table.size;
    let what = format!("BP {bp:02b}: two bytes over the start at {from:05X}h");
    let bits = if part == 0 { 0 } else { u32::from(bp) };
    shown(&what, part, bits, |script| {
        if part == 0 {
            script.command(&[WREN]);
            script.command(&[WRSR, bp << 2]);
        }
        script.command(&[WREN]);
        script.command(&[&addressed(part, WRITE, below)[..], &[0x5a, 0xa5]].concat());
        script.ask_status();
    })
}
