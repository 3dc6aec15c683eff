//! Ask 6: on part 1 a finished data byte of WRITE waits until CS# rises or the next counted rise, and
//! is stored then; a cut in between loses it. What a cell holds after each sample is written here by
//! hand or told from the wires alone, and the ledger is fed the same events.

#[path = "common/added.rs"]
mod added;
mod common;
#[allow(dead_code)]
#[path = "common/images.rs"]
mod images;

use added::added;
use common::Bus;
use images::{dump, taken, Image};
use twin::image::{decode, encode};
use twin::text::{first_byte, first_memory};
use twin::trace::events;
use twin::{Ledger, Model};

/// The part that stores late, and the other SPI parts.
const LATE: u32 = 1;
const OTHERS: [u32; 2] = [0, 2];

/// Where the tests write, and what; its last bit is 0.
const AT: usize = 0x123;
const BYTE: u8 = 0x5a;

/// A part with a ledger beside it.
struct Fed {
    bus: Bus,
    ledger: Ledger,
}

impl Fed {
    /// A part made with these bits, under power and not selected.
    fn on(part: u32, bits: u32) -> Fed {
        let bus = Bus::make(part, 0, bits);
        let ledger = Ledger::begin(part, 0, bits, &bus.memory);
        let mut fed = Fed { bus, ledger };
        fed.event(&[1, 0x19]);
        fed
    }

    /// The same with its enable.
    fn enabled(part: u32, bits: u32) -> Fed {
        let mut fed = Fed::on(part, bits);
        fed.command(&[6]);
        fed
    }

    /// The same in a WRITE, whose last data byte is just finished: SCK rose with its last bit.
    fn written(part: u32, bits: u32, address: usize, data: &[u8]) -> Fed {
        let mut fed = Fed::enabled(part, bits);
        fed.write(address, data);
        fed
    }

    /// An event that must be accepted. The ledger has the same memory after it.
    fn event(&mut self, event: &[u8]) {
        let answer = self.bus.event(event);
        self.ledger.feed(event, answer);
        assert!(self.bus.memory == self.ledger.memory(), "{event:02x?}");
    }

    fn samples(&mut self, samples: &[u8]) {
        samples.iter().for_each(|&sample| self.event(&[4, sample]));
    }

    /// Bits in, each with SCK low and then high.
    fn bytes(&mut self, bytes: &[u8]) {
        let bits = bytes
            .iter()
            .flat_map(|byte| (0..8).rev().map(move |at| byte >> at & 1));
        bits.for_each(|si| self.samples(&[0x18 | si << 2, 0x1a | si << 2]));
    }

    /// CS# falls, and code, address and data come in.
    fn write(&mut self, address: usize, data: &[u8]) {
        let head = self.bus.model.part().addressed(2, address);
        self.samples(&[0x18]);
        self.bytes(&[&head[..], data].concat());
    }

    /// A selection of whole bytes.
    fn command(&mut self, bytes: &[u8]) {
        self.samples(&[0x18]);
        self.bytes(bytes);
        self.samples(&[0x18, 0x19]);
    }

    /// The byte that waits and its address, as the image has them.
    fn waits(&self) -> Option<(usize, u8)> {
        waits(&self.image())
    }

    fn image(&self) -> Image {
        encode(&self.bus.model)
    }

    /// What the cell holds now, and with power cut, on a copy; no clock and no selection that comes
    /// after the cut stores anything.
    fn assert_cell(&self, address: usize, byte: u8, about: &str) {
        assert_eq!(self.bus.memory[address], byte, "{about}");
        let (mut model, mut memory) = (self.bus.model.clone(), self.bus.memory.clone());
        let after = [
            0x03, 0x01, 0x18, 0x04, 0x1a, 0x04, 0x18, 0x04, 0x19, 0x04, 0x18, 0x04, 0x1a,
        ];
        let ran = model.run_each(&after, u64::MAX, &mut memory, |_| ());
        assert_eq!((ran.number, ran.count), (0, 7), "{about}");
        assert!(memory == self.bus.memory, "after a cut: {about}");
    }
}

/// Of an image.
fn waits(image: &Image) -> Option<(usize, u8)> {
    let address = u32::from_be_bytes([0, image[12], image[13], image[14]]);
    (image[7] == 0x34).then_some((address as usize, image[15]))
}

/// What comes behind the eighth rise, after which the wires are 1Ah, and which of these samples
/// stores.
const BEHIND: [(&str, &[u8], Option<usize>); 24] = [
    ("SCK falls", &[0x18], None),
    ("SCK falls and rises, SI 0", &[0x18, 0x1a], Some(1)),
    ("SCK falls and rises, SI 1", &[0x1c, 0x1e], Some(1)),
    ("the same sample again", &[0x1a, 0x1a], None),
    ("SI moves", &[0x1e, 0x1a, 0x1e], None),
    ("WP# moves", &[0x12, 0x1a, 0x12], None),
    ("SCK falls, then SI and WP# move", &[0x18, 0x1c, 0x14], None),
    ("CS# rises, SCK high", &[0x1b], Some(0)),
    ("CS# rises, SCK low", &[0x18, 0x19], Some(1)),
    ("CS# rises as SCK falls", &[0x19], Some(0)),
    ("CS# rises as SCK rises", &[0x18, 0x1b], Some(1)),
    ("CS# rises as WP# falls", &[0x13], Some(0)),
    ("CS# rises as HOLD# falls", &[0x0b], Some(0)),
    ("HOLD# falls", &[0x0a], None),
    ("HOLD# falls and rises", &[0x0a, 0x1a], None),
    ("CS# rises in a hold", &[0x0a, 0x0b], Some(1)),
    ("CS# rises with HOLD#", &[0x0a, 0x1b], Some(1)),
    ("SCK rises as HOLD# falls", &[0x18, 0x0a, 0x1a], None),
    ("SCK rises as HOLD# rises", &[0x18, 0x08, 0x1a], None),
    ("SCK rises in a hold", &[0x18, 0x08, 0x0a, 0x08, 0x0a], None),
    (
        "SCK rises behind a hold",
        &[0x0a, 0x08, 0x18, 0x1a],
        Some(3),
    ),
    ("CS# rises behind a hold", &[0x0a, 0x1a, 0x1b], Some(2)),
    (
        "SCK rises in a hold, CS# behind it",
        &[0x18, 0x08, 0x0a, 0x18, 0x19],
        Some(4),
    ),
    (
        "SCK rises with HOLD#, and again",
        &[0x18, 0x08, 0x1a, 0x18, 0x1a],
        Some(4),
    ),
];

/// The byte waits up to the sample that stores it; its cell is as it was until then, and has the
/// byte from then on.
fn late(what: &str, samples: &[u8], stores: Option<usize>) {
    let mut fed = Fed::written(LATE, 0, AT, &[BYTE]);
    assert_eq!(fed.waits(), Some((AT, BYTE)), "{what}");
    fed.assert_cell(AT, first_byte(AT), what);
    for (at, &sample) in samples.iter().enumerate() {
        fed.samples(&[sample]);
        let stored = stores.is_some_and(|place| at >= place);
        let cell = if stored { BYTE } else { first_byte(AT) };
        fed.assert_cell(AT, cell, what);
        let waiting = (!stored).then_some((AT, BYTE));
        assert_eq!(fed.waits(), waiting, "{what}, sample {at}");
    }
}

#[test]
fn behind_the_eighth_rise() {
    for (what, samples, stores) in BEHIND {
        late(what, samples, stores);
    }
}

/// The byte is there from its eighth rise on, and never waits.
fn at_once(part: u32, what: &str, samples: &[u8]) {
    let mut fed = Fed::written(part, 0, AT, &[BYTE]);
    fed.assert_cell(AT, BYTE, what);
    for &sample in samples {
        assert_eq!(fed.waits(), None, "{what}");
        fed.samples(&[sample]);
        fed.assert_cell(AT, BYTE, what);
    }
}

#[test]
fn other_parts_store_at_the_eighth_rise() {
    for (what, samples, _) in BEHIND {
        OTHERS.iter().for_each(|&part| at_once(part, what, samples));
    }
}

/// By the wires alone: CS# rises, or SCK rises with CS# 0 and HOLD# 1 in both samples.
fn follows(old: u8, new: u8) -> bool {
    let (cs, sck, hold) = (1, 2, 16);
    let ended = old & cs == 0 && new & cs != 0;
    let rose = old & sck == 0 && new & sck != 0;
    ended || rose && (old | new) & cs == 0 && old & new & hold != 0
}

/// Samples behind the eighth rise, on a model and a memory that is put back; whether they store.
fn sequence(part: u32, fed: &Fed, memory: &mut [u8], samples: [u8; 3]) -> bool {
    let (mut model, mut old) = (fed.bus.model.clone(), 0x1a);
    let mut stored = part != LATE;
    for sample in samples {
        model.event(&[4, sample], memory);
        stored |= follows(std::mem::replace(&mut old, sample), sample);
        let cell = if stored { BYTE } else { first_byte(AT) };
        assert_eq!(memory[AT], cell, "part {part}, {samples:02x?}");
        let waiting = (!stored).then_some((AT, BYTE));
        let told = waits(&encode(&model));
        assert_eq!(told, waiting, "part {part}, {samples:02x?}");
    }
    memory[AT] = fed.bus.memory[AT];
    stored
}

/// Any three samples behind the eighth rise.
#[test]
fn every_three_samples() {
    for part in 0..3 {
        let fed = Fed::written(part, 0, AT, &[BYTE]);
        let mut memory = fed.bus.memory.clone();
        let each = (0..1_u16 << 15).map(|it| [0, 5, 10].map(|at| (it >> at & 31) as u8));
        let stored = each.filter(|&samples| sequence(part, &fed, &mut memory, samples));
        // CS# is 0 in all: of the 64 ways of SCK and HOLD# 8 have a counted rise, and SI and WP# are any.
        let kept = if part == LATE { (64 - 8) * 64 } else { 0 };
        assert_eq!(stored.count(), (1 << 15) - kept, "part {part}");
    }
}

/// Two samples fed to the ledger alone: it has the byte just where the wires say so.
fn ledger_alone(part: u32, fed: &Fed, [one, two]: [u8; 2]) {
    let mut ledger = fed.ledger.clone();
    ledger.feed(&[4, one], 2);
    ledger.feed(&[4, two], 2);
    let late = part == LATE;
    let followed = follows(0x1a, one) || follows(one, two);
    let more = ledger.stored() - fed.ledger.stored();
    let about = format!("part {part}, {one:02x} {two:02x}");
    assert_eq!(more, u64::from(late && followed), "{about}");
    let lost = late && !followed;
    let cell = if lost { first_byte(AT) } else { BYTE };
    assert_eq!(ledger.memory()[AT], cell, "{about}");
}

#[test]
fn the_ledger_over_every_two_samples() {
    for part in 0..3 {
        let fed = Fed::written(part, 0, AT, &[BYTE]);
        let pairs = (0..32).flat_map(|one| (0..32).map(move |two| [one, two]));
        pairs.for_each(|pair| ledger_alone(part, &fed, pair));
    }
}

/// The cut is the only event: the model is as made, and the ledger has the bits and the memory.
#[test]
fn a_cut_loses_it() {
    for before in [&[][..], &[0x18], &[0x0a], &[0x18, 0x08, 0x0a], &[0x12]] {
        let mut fed = Fed::written(LATE, 1, AT, &[BYTE]);
        fed.samples(before);
        assert_eq!(fed.waits(), Some((AT, BYTE)));
        fed.event(&[3]);
        assert_eq!(fed.image(), dump("01 00 04"));
        assert!(fed.bus.memory == first_memory(0x20000));
        assert_eq!((fed.ledger.stored(), fed.ledger.bits()), (0, 1));
        fed.event(&[1, 0x18]);
        fed.samples(&[0x1a, 0x18, 0x19, 0x18, 0x1a, 0x18, 0x19]);
        assert!(fed.bus.memory == first_memory(0x20000));
    }
}

/// An expected answer and what is refused leave it waiting: the answer is that nothing is driven.
#[test]
fn events_that_are_no_samples() {
    let mut fed = Fed::written(LATE, 0, AT, &[BYTE]);
    let image = fed.image();
    fed.event(&[5, 2]);
    for (event, number) in [
        (&[5, 0][..], 9),
        (&[1, 0x19], 8),
        (&[4, 32], 6),
        (&[2], 4),
        (&[4], 5),
    ] {
        let given = fed.bus.model.event(event, &mut fed.bus.memory);
        assert_eq!(given, (number, 2, false));
    }
    let mut output = [0; 1];
    let bus = &mut fed.bus;
    let selected = bus.model.select(true, &[6], &mut output, &mut bus.memory);
    assert_eq!(selected.number, 12);
    assert_eq!(fed.image(), image);
    fed.assert_cell(AT, first_byte(AT), "refused events");
    fed.samples(&[0x1b]);
    fed.assert_cell(AT, BYTE, "CS# rises");
}

/// The first stands and the second waits; then the second stands too, and a cut loses three bits of
/// the third.
#[test]
fn byte_after_byte() {
    let mut fed = Fed::written(LATE, 0, AT, &[0x11]);
    fed.bytes(&[0x22]);
    fed.assert_cell(AT, 0x11, "the first");
    fed.assert_cell(AT + 1, first_byte(AT + 1), "the second");
    assert_eq!(fed.waits(), Some((AT + 1, 0x22)));
    assert_eq!(fed.ledger.stored(), 1);
    fed.samples(&[0x1c, 0x1e]);
    fed.assert_cell(AT + 1, 0x22, "the second");
    fed.samples(&[0x18, 0x1a, 0x1c, 0x1e]);
    assert_eq!(fed.image()[7..16], [0x15, 3, 0, 0, 0b101, 0, 1, 0x25, 1]);
    fed.event(&[3]);
    assert_eq!(fed.ledger.stored(), 2);
    let cells = [AT, AT + 1, AT + 2].map(|at| fed.bus.memory[at]);
    assert_eq!(cells, [0x11, 0x22, first_byte(AT + 2)]);
}

/// The image of a byte that waits, and the one behind the next counted rise; over the top.
#[test]
fn over_the_top() {
    let mut fed = Fed::written(LATE, 0, 0x1ffff, &[0x77]);
    let waiting = dump("01 00 02 01 1e 02 00 34  00 00 00 00 01 ff ff 77");
    assert_eq!(fed.image(), waiting);
    fed.samples(&[0x1c, 0x1e]);
    let next = dump("01 00 02 01 1e 02 00 15  01 00 00 01 00 00 00 01");
    assert_eq!(fed.image(), next);
    assert_eq!(fed.bus.memory[0x1ffff], 0x77);
    // The other bits of 88h.
    for bit in [0, 0, 0, 1, 0, 0, 0] {
        fed.samples(&[0x18 | bit << 2, 0x1a | bit << 2]);
    }
    let waiting = dump("01 00 02 01 1a 02 00 34  00 00 00 00 00 00 00 88");
    assert_eq!(fed.image(), waiting);
    fed.assert_cell(0, first_byte(0), "the second");
    fed.samples(&[0x1b]);
    fed.assert_cell(0, 0x88, "the second");
    assert_eq!(fed.image(), dump("01 00 00 01 1b 02"));
}

/// What a part is made with, whether it has its enable, and a byte that is then not stored.
const DROPPED: [(u32, bool, usize); 5] = [
    (0, false, AT),
    (1, true, 0x18000),
    (2, true, 0x10000),
    (2, true, 0x1ffff),
    (7, true, 0),
];

/// It waits as any other, and is dropped with what follows it; the next one is one up.
fn dropped(bits: u32, enabled: bool, address: usize, rise: bool) {
    let mut fed = match enabled {
        true => Fed::enabled(LATE, bits),
        false => Fed::on(LATE, bits),
    };
    fed.write(address, &[BYTE]);
    assert_eq!(fed.waits(), Some((address, BYTE)));
    let next = ((address + 1) % 0x20000) as u32;
    if rise {
        fed.samples(&[0x18, 0x1a]);
        let [_, high, middle, low] = next.to_be_bytes();
        let data = [0x15, 1, 0, 0, 0, high, middle, low, 1];
        assert_eq!(fed.image()[7..16], data);
        fed.samples(&[0x18]);
    }
    fed.samples(&[0x19]);
    assert!(fed.bus.memory == first_memory(0x20000));
    assert_eq!(fed.ledger.stored(), 0);
    // WEL is over, protected or not.
    assert_eq!(fed.image()[2] & 2, 0);
}

#[test]
fn what_is_not_permitted_is_dropped() {
    for (bits, enabled, address) in DROPPED {
        dropped(bits, enabled, address, false);
        dropped(bits, enabled, address, true);
    }
}

/// Each byte is judged by its own address: one below the border and one at it, one at the top and one
/// behind it.
#[test]
fn judged_by_its_own_address() {
    let mut fed = Fed::written(LATE, 2, 0xffff, &[0x55, 0x66]);
    fed.samples(&[0x1b]);
    let cells = (fed.bus.memory[0xffff], fed.bus.memory[0x10000]);
    assert_eq!(cells, (0x55, first_byte(0x10000)));
    let mut fed = Fed::written(LATE, 2, 0x1ffff, &[0x55, 0x66]);
    fed.samples(&[0x1b]);
    let cells = (fed.bus.memory[0x1ffff], fed.bus.memory[0]);
    assert_eq!(cells, (first_byte(0x1ffff), 0x66));
}

/// WEL lasts while the byte waits and is over behind it, so that a second WRITE stores nothing.
#[test]
fn wel_is_over_behind_it() {
    let mut fed = Fed::written(LATE, 0, AT, &[BYTE]);
    assert_eq!(fed.image()[2], 0x02);
    fed.samples(&[0x1b]);
    assert_eq!(fed.image()[2], 0x00);
    fed.write(AT + 1, &[BYTE]);
    fed.samples(&[0x18, 0x19]);
    assert_eq!(fed.bus.memory[AT + 1], first_byte(AT + 1));
    assert_eq!(fed.ledger.stored(), 1);
    // Seven bits of a byte neither wait nor end it.
    let mut fed = Fed::written(LATE, 0, AT, &[]);
    fed.samples(&[0x18, 0x1a].repeat(7));
    assert_eq!(fed.waits(), None);
    fed.samples(&[0x1b]);
    assert_eq!(fed.image()[2], 0x02);
    assert_eq!(fed.bus.memory[AT], first_byte(AT));
}

/// A selection of these bytes, of which none waits.
fn none_waits(input: &[u8]) {
    let mut fed = Fed::enabled(LATE, 0);
    fed.samples(&[0x18]);
    for &byte in input {
        fed.bytes(&[byte]);
        assert_eq!(fed.waits(), None, "{input:02x?}");
    }
}

/// Only WRITE has bytes that wait.
#[test]
fn other_commands_have_none() {
    none_waits(&[1, 0x04, 0x08]);
    none_waits(&[3, 0, 0, 0, 0, 0]);
    none_waits(&[5, 0]);
    none_waits(&[6, 0]);
    none_waits(&[0x0b, 0, 0, 0, 0, 0]);
    none_waits(&[0x9f, 0]);
    none_waits(&[0xb9, 0]);
    none_waits(&[0xff, 0, 0, 0, 0, 0]);
    none_waits(&[2, 0, 1, 0x23]);
}

/// Two data bytes with a hold behind each and a third that a cut loses; then a WRITE that CS# ends.
fn long_trace() -> Vec<u8> {
    let part = &twin::PARTS[LATE as usize];
    let bits = |bytes: &[u8]| -> Vec<u8> {
        let places = bytes
            .iter()
            .flat_map(|byte| (0..8).rev().map(move |at| byte >> at & 1));
        places
            .flat_map(|si| [0x18 | si << 2, 0x1a | si << 2])
            .collect()
    };
    let hold = [0x0a, 0x08, 0x0a, 0x1a].to_vec();
    let [fall, rise] = [vec![0x18], vec![0x19]];
    let head = part.addressed(2, 0x1ffff);
    let wren = [fall.clone(), bits(&[6]), rise.clone()].concat();
    let first = [
        wren.clone(),
        fall.clone(),
        bits(&head),
        bits(&[0x11]),
        hold.clone(),
        bits(&[0x22]),
        hold,
        bits(&[0x33]),
    ];
    let second = [wren, fall, bits(&head), bits(&[0x44]), rise];
    let samples =
        |all: &[Vec<u8>]| -> Vec<u8> { all.concat().iter().flat_map(|&it| [4, it]).collect() };
    [
        vec![1, 0x19],
        samples(&first),
        vec![3, 1, 0x19],
        samples(&second),
        vec![3],
    ]
    .concat()
}

/// The trace in two runs, the second on the model of the first one's image: they add up to one run.
/// Whether a byte waited between them.
fn split(trace: &[u8], count: u64) -> bool {
    let (_, mut whole) = Model::make(LATE, 0, 0);
    let (mut first, mut memory) = (whole.clone(), first_memory(0x20000));
    let (mut cells, mut one, mut two) = (memory.clone(), Vec::new(), Vec::new());
    let all = whole.run(trace, u64::MAX, &mut memory, &mut one);
    let ran = first.run(trace, count, &mut cells, &mut two);
    let image = encode(&first);
    let mut second = taken(&image);
    let rest = &trace[ran.offset as usize..];
    let sum = added(ran, second.run(rest, u64::MAX, &mut cells, &mut two), trace);
    assert_eq!((sum, &second, one), (all, &whole, two), "{count}");
    assert!(memory == cells, "{count}");
    let stored = [(0x1ffff, 0x44), (0, 0x22), (1, first_byte(1))];
    assert!(stored.iter().all(|&(at, byte)| memory[at] == byte));
    waits(&image).is_some()
}

#[test]
fn runs_split_at_every_event() {
    let trace = long_trace();
    let count = events(&trace).count() as u64;
    let waiting = (0..=count).filter(|&at| split(&trace, at)).count();
    // Behind the eighth rise, in the hold and behind it, and after the next fall.
    assert_eq!(waiting, 6 + 6 + 1 + 1);
}

/// A selection as bytes ends with CS# rising: its last byte is stored, and a cut loses none.
#[test]
fn bytes_leave_none_waiting() {
    for data in [&[0x11][..], &[0x11, 0x22], &[0x11, 0x22, 0x33]] {
        let mut bus = Bus::spi(LATE, 0);
        bus.command(&[6]);
        let input = [&[2, 0x01, 0xff, 0xff], data].concat();
        let mut output = vec![0; input.len()];
        let selected = bus.model.select(true, &input, &mut output, &mut bus.memory);
        assert_eq!((selected.number, selected.count), (0, 0));
        assert_eq!(encode(&bus.model)[7], 0);
        bus.event(&[3]);
        let mut expected = first_memory(0x20000);
        let places = [0x1ffff, 0, 1];
        places
            .iter()
            .zip(data)
            .for_each(|(&at, &byte)| expected[at] = byte);
        assert!(bus.memory == expected, "{data:02x?}");
    }
}

/// 77h waits for the top address.
const WAITING: &str = "01 00 02 01 1e 02 00 34  00 00 00 00 01 ff ff 77";

/// The same with one byte changed.
fn changed(at: usize, value: u8) -> Image {
    let mut image = dump(WAITING);
    image[at] = value;
    image
}

/// A waiting image, with any byte, any address of the part and whatever stands beside them.
#[test]
fn waiting_images_are_taken() {
    let values = |at, values: &[u8]| {
        let mut images = values.iter().map(|&value| changed(at, value));
        images.all(|image| encode(&taken(&image)) == image)
    };
    assert!(values(2, &[0x00, 0x02, 0x04, 0x08, 0x80, 0x8e]));
    assert!(values(4, &[0x00, 0x01, 0x0a, 0x18, 0x19, 0x1f]));
    assert!(values(5, &[0, 1, 2]));
    assert!(values(6, &[0, 1]));
    assert!(values(12, &[0, 1]));
    assert!(values(13, &[0x00, 0x80, 0xff]));
    assert!(values(15, &[0x00, 0x01, 0x02, 0x80, 0xff]));
}

/// On another part, without power, and with each number out of its range; on the other SPI parts also
/// at an address of their own.
#[test]
fn waiting_images_are_refused() {
    let none = |at, values: &[u8]| {
        let mut images = values.iter().map(|&value| changed(at, value));
        images.all(|image| decode(&image).is_none())
    };
    assert!(none(0, &[0, 2, 3, 4, 5]));
    assert!(none(1, &[1]));
    assert!(none(2, &[0x03, 0x12]));
    assert!(none(3, &[0, 2, 3]));
    assert!(none(4, &[32]));
    assert!(none(5, &[3]));
    assert!(none(6, &[2]));
    assert!(none(7, &[0x35]));
    assert!(none(8, &[1, 8]));
    assert!([9, 10, 11].iter().all(|&at| none(at, &[1, 255])));
    assert!(none(12, &[2, 3, 255]));
    // The size itself.
    let size = dump("01 00 02 01 1e 02 00 34  00 00 00 00 02 00 00 77");
    assert_eq!(decode(&size), None);
    assert!((16..32).all(|at| none(at, &[1, 255])));
    assert_eq!(decode(&dump("00 00 02 01 1e 02 00 34")), None);
    assert_eq!(decode(&dump("02 00 02 01 1e 02 00 34")), None);
}

/// A bus whose model is that of a dump.
fn bus(text: &str) -> Bus {
    let model = taken(&dump(text));
    let memory = first_memory(model.part().size);
    Bus {
        model,
        memory,
        others: 0x18,
    }
}

/// From an image: stored by a rise or by CS#, also where the state is asleep, which is then over. One
/// that stands while CS# is 1 is forgotten as it falls, by pins and by bytes.
#[test]
fn from_a_waiting_image() {
    let mut rise = bus("01 00 02 01 18 01 00 34  00 00 00 00 00 01 23 77");
    rise.event(&[4, 0x1e]);
    let next = dump("01 00 02 01 1e 01 00 15  01 00 00 01 00 01 24 01");
    assert_eq!((encode(&rise.model), rise.memory[AT]), (next, 0x77));
    let mut asleep = bus("01 00 02 01 18 02 01 34  00 00 00 00 00 01 23 77");
    asleep.event(&[4, 0x19]);
    let rest = dump("01 00 00 01 19 02");
    assert_eq!((encode(&asleep.model), asleep.memory[AT]), (rest, 0x77));
    let text = "01 00 02 01 19 02 00 34  00 00 00 00 00 01 23 77";
    let mut unselected = bus(text);
    unselected.event(&[4, 0x1b]);
    assert_eq!(encode(&unselected.model)[7], 0x34);
    unselected.event(&[4, 0x18]);
    assert_eq!(encode(&unselected.model)[7], 0x10);
    unselected.event(&[4, 0x19]);
    let mut by_bytes = bus(text);
    let selected = by_bytes
        .model
        .select(true, &[], &mut [], &mut by_bytes.memory);
    assert_eq!(selected.number, 0);
    assert_eq!(by_bytes.model, unselected.model);
    for memory in [unselected.memory, by_bytes.memory] {
        assert!(memory == first_memory(0x20000));
    }
}
