//! What masters of the two buses do, written down as traces.

use crate::common::power_on;
use sildrokk::trace::{i2c, spi, Event};
use sildrokk::{Answer, Bus, Part};

/// One sample after the other.
pub fn samples(wires: &[u8]) -> Vec<u8> {
    let mut trace = Vec::new();
    let mut write = |&sample| Event::Sample(sample).write(&mut trace);
    wires.iter().for_each(&mut write);
    trace
}

/// The bits of a byte, high bit first.
fn bits(byte: u8) -> impl Iterator<Item = u8> {
    (0..8).rev().map(move |place| byte >> place & 1)
}

/// A selection of an SPI part: CS# falls with SCK low, each bit is a sample with SCK high and one with
/// SCK low, and CS# rises with SI kept.
pub fn selection(wp: bool, input: &[u8]) -> Vec<u8> {
    let others = spi::HOLD | if wp { spi::WP } else { 0 };
    let mut low = others;
    let mut wires = vec![low];
    for bit in input.iter().flat_map(|&byte| bits(byte)) {
        low = others | (bit * spi::SI);
        wires.extend([low | spi::SCK, low]);
    }
    wires.push(low | spi::CS);
    samples(&wires)
}

/// A command of an SPI part with an address, as long as the part's are, and what follows.
pub fn addressed(part: Part, opcode: u8, address: u32, rest: &[u8]) -> Vec<u8> {
    let [_, address @ ..] = address.to_be_bytes();
    let unused = usize::from(part == Part::Mr45v032a);
    [&[opcode], &address[unused..], rest].concat()
}

/// The samples of a START and of a STOP, WP low.
pub const START: [u8; 4] = [i2c::SDA, i2c::SDA | i2c::SCL, i2c::SCL, 0];
pub const STOP: [u8; 3] = [0, i2c::SCL, i2c::SCL | i2c::SDA];

/// The samples of a byte on I2C, each bit with SCL low, high and low; then of the ninth bit, with which
/// the master acknowledges what it reads if that is 0.
pub fn byte(byte: u8, ninth: u8) -> Vec<u8> {
    let wires = |bit| [0, i2c::SCL, 0].map(|scl| (bit * i2c::SDA) | scl);
    bits(byte).chain([ninth]).flat_map(wires).collect()
}

/// Where the sessions write, and what.
pub const WRITTEN: usize = 0x123;
pub const BYTES: [u8; 2] = [0x77, 0x88];

/// From power on to power off: a right answer expected, bytes written and read again, and the protect pin
/// moved where it is to be held still.
pub fn session(part: Part) -> Vec<u8> {
    let mut trace = power_on(part.bus());
    Event::Expected(Answer::Nothing as u8).write(&mut trace);
    trace.extend(match part.bus() {
        Bus::Spi => on_spi(part),
        Bus::I2c => on_i2c(),
    });
    Event::PowerOff.write(&mut trace);
    trace
}

fn on_spi(part: Part) -> Vec<u8> {
    let at = WRITTEN as u32;
    let moved = [spi::HOLD | spi::WP, spi::HOLD, spi::HOLD | spi::CS];
    [
        selection(true, &[0x06]),
        selection(true, &addressed(part, 0x02, at, &BYTES)),
        samples(&moved),
        selection(false, &addressed(part, 0x03, at, &[0, 0])),
    ]
    .concat()
}

fn on_i2c() -> Vec<u8> {
    let [high, low] = (WRITTEN as u16).to_be_bytes();
    let sent = |bytes: &[u8]| bytes.iter().flat_map(|&it| byte(it, 1)).collect();
    let address: Vec<u8> = sent(&[0xa0, high, low]);
    let written: Vec<u8> = sent(&BYTES);
    let read = [byte(0xa1, 1), byte(0xff, 0), byte(0xff, 1)].concat();
    let protected: Vec<u8> = read.iter().chain(&STOP).map(|it| it | i2c::WP).collect();
    let write = [&START[..], &address, &written, &STOP].concat();
    let read = [&START[..], &address, &START, &protected].concat();
    samples(&[write, read].concat())
}
