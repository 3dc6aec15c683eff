//! Ask 6: power is cut after every event around the last rise of each data byte of a WRITE, and after
//! any two samples behind it. What memory holds then is told from the wires alone (`drive::late`); the
//! ledger is not asked.

use super::{Bench, Look};
use drive::late::{follows, writes, Write, LATE};
use drive::script::{addressed, Script};
use drive::{Making, Ran};
use twin::text::first_byte;

/// Cuts behind a last rise of which the byte was lost, and of which it stood.
#[derive(Debug, Default, PartialEq, Eq)]
struct Cuts {
    lost: u64,
    stood: u64,
}

impl Cuts {
    fn add(&mut self, lost: bool) {
        self.lost += u64::from(lost);
        self.stood += u64::from(!lost);
    }
}

/// A power off behind these events: it is accepted, the memory is the one expected, and after a power
/// on the bus shows the byte at this address.
fn cut(bench: &mut Bench, front: &[u8], expected: &[u8], address: usize) {
    let look = Look::after_cut(bench.part, 0, true, address);
    let whole = [front, look.script.trace()].concat();
    let Ran { number, count, .. } = bench.run(&whole);
    let before = front.len() / 2;
    let all = (before + look.script.events()) as u64;
    assert_eq!((number, count), (0, all), "{whole:x?}");
    assert!(bench.memory == expected, "memory: {whole:x?}");
    let (bits, byte) = look.seen(&bench.answers[before..]);
    let bits_saved = u32::from(bits);
    assert_eq!((bits_saved, byte), (bench.making.bits, expected[address]));
}

/// One WRITE, cut around each of its bytes.
fn around(write: &Write, bench: &mut Bench, cuts: &mut Cuts) {
    for count in write.around() {
        let expected = write.memory(count);
        let last = write.data.iter().rfind(|data| data.finished < count);
        let address = last.unwrap_or(&write.data[0]).address;
        cut(bench, &write.trace[..2 * count], &expected, address);
        if let Some(data) = last.filter(|data| data.permitted) {
            assert!(data.byte != first_byte(address));
            cuts.add(expected[address] != data.byte);
        }
    }
}

/// Every WRITE of a part. On part 1 bytes were lost and bytes stood; on the others all stood.
fn around_each_byte(part: u32) {
    let mut cuts = Cuts::default();
    for write in writes(part) {
        let mut bench = Bench::new(write.making);
        around(&write, &mut bench, &mut cuts);
    }
    let some_lost = if part == LATE {
        cuts.lost > 350
    } else {
        cuts.lost == 0
    };
    assert!(some_lost && cuts.stood > 250, "{cuts:?}");
}

#[test]
fn around_each_byte_of_part_0() {
    around_each_byte(0);
}

#[test]
fn around_each_byte_of_part_1() {
    around_each_byte(1);
}

#[test]
fn around_each_byte_of_part_2() {
    around_each_byte(2);
}

const AT: usize = 0x123;
/// Its last bit is 0, so that the wires are 1Ah behind its last rise.
const BYTE: u8 = 0x5a;

/// A WRITE of one byte up to its last rise.
fn finished(part: u32) -> Vec<u8> {
    let mut script = Script::spi();
    script.command(&[6]);
    script.select();
    script.bytes(&addressed(part, 2, AT));
    script.byte(BYTE);
    script.into_trace()
}

/// Any samples behind a last rise, and the cut.
fn any_samples(part: u32, samples: &[u8], bench: &mut Bench, cuts: &mut Cuts) {
    let wires = [&[0x1a], samples].concat();
    let followed = wires.windows(2).any(|pair| follows(pair[0], pair[1]));
    let lost = part == LATE && !followed;
    let events = samples.iter().flat_map(|&sample| [4, sample]);
    let front: Vec<u8> = finished(part).into_iter().chain(events).collect();
    let mut expected = bench.first.clone();
    if !lost {
        expected[AT] = BYTE;
    }
    cut(bench, &front, &expected, AT);
    cuts.add(lost);
}

/// None, any one and any two.
fn any_two_samples(part: u32) {
    let mut bench = Bench::new(Making::new(part, 0, 0));
    let mut cuts = Cuts::default();
    let ones = (0..32).map(|one| vec![one]);
    let twos = (0..32).flat_map(|one| (0..32).map(move |two| vec![one, two]));
    for samples in ones.chain(twos).chain([Vec::new()]) {
        any_samples(part, &samples, &mut bench, &mut cuts);
    }
    // With CS# 0: of one sample any, of two all but those with a counted rise, one way in 16.
    let lost = if part == LATE { 1 + 16 + 15 * 16 } else { 0 };
    let stood = 1 + 32 + 32 * 32 - lost;
    assert_eq!(cuts, Cuts { lost, stood });
}

#[test]
fn any_two_samples_on_part_0() {
    any_two_samples(0);
}

#[test]
fn any_two_samples_on_part_1() {
    any_two_samples(1);
}

#[test]
fn any_two_samples_on_part_2() {
    any_two_samples(2);
}
