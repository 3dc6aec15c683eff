//! What the traces of a part came to, and how much of it there must be at least.

use crate::reading::{Given, Reached};
use std::collections::{BTreeMap, BTreeSet};

#[derive(Default)]
pub struct Tally {
    /// Makings, by pins and bits.
    pub makings: BTreeSet<(u32, u32)>,
    pub reached: BTreeMap<Reached, u64>,
    /// Accepted events by their answers, and all by their numbers.
    pub answers: [u64; 3],
    pub numbers: [u64; 12],
    pub flags: u64,
    /// Events under power after which a cut keeps some bit, or loses one.
    pub kept: u64,
    pub lost: u64,
}

impl Tally {
    pub fn enter(&mut self, given: &Given) {
        self.numbers[usize::from(given.number)] += 1;
        if given.number == 0 {
            self.answers[usize::from(given.answer)] += 1;
        }
        self.flags += u64::from(given.step.flag);
        for reached in given.step.reached.into_iter().flatten() {
            *self.reached.entry(reached).or_default() += 1;
        }
    }

    /// The bits under power, and what a cut leaves of them.
    pub fn enter_cut(&mut self, bits: u8, saved: u8) {
        self.kept += u64::from(saved != 0);
        self.lost += u64::from(saved != bits);
    }

    /// The floors are about half of what 20,000 traces had. A floor of 0 is for what the part cannot
    /// have: there must be none of it.
    pub fn assert_floors(&self, part: usize) {
        let makings = [1, 8, 8, 8, 4][part];
        assert_eq!(self.makings.len(), makings, "makings of part {part}");
        self.assert_rules(part);
        self.assert_given(part);
    }

    /// Each rule of the part decided often enough, and no other did.
    fn assert_rules(&self, part: usize) {
        let floors = floors(part);
        let rules = floors.iter().map(|(rule, _)| rule);
        let same = self.reached.keys().eq(rules);
        assert!(same, "part {part} reached {:?}", self.reached);
        for (rule, floor) in floors {
            at_least(part, &format!("{rule:?}"), self.reached[&rule], floor);
        }
    }

    /// Answers, numbers, flags and cuts.
    fn assert_given(&self, part: usize) {
        let [high, start] = if part < 3 { [100_000, 0] } else { [0, 200] };
        at_least(part, "low", self.answers[0], 250_000);
        at_least(part, "high", self.answers[1], high);
        let numbers = [50_000, 120, 800, 8_000, 60, 2_500, start, 380];
        for ((number, &count), floor) in (4..).zip(&self.numbers[4..]).zip(numbers) {
            at_least(part, &format!("number {number}"), count, floor);
        }
        at_least(part, "flags", self.flags, 45_000);
        let [kept, lost] = match part {
            0 => [0, 1_000_000],
            1 | 2 => [5_000_000, 0],
            _ => [0, 0],
        };
        at_least(part, "bits kept", self.kept, kept);
        at_least(part, "bits lost", self.lost, lost);
    }
}

fn at_least(part: usize, what: &str, count: u64, floor: u64) {
    let enough = if floor == 0 {
        count == 0
    } else {
        count >= floor
    };
    assert!(enough, "part {part}, {what}: {count} for {floor}");
}

/// The rules that a part reaches, in their order, each with its floor.
fn floors(part: usize) -> Vec<(Reached, u64)> {
    let of: &[&[(Reached, u64)]] = match part {
        0 => &[&STORES, &SPI],
        1 => &[&LATE_STORES, &SPI, &IDENTITY, &FAST_READ_AND_SLEEP],
        2 => &[&STORES, &SPI, &IDENTITY],
        3 => &[&STORES, &I2C],
        _ => &[&STORES, &I2C, &A16],
    };
    let mut floors = of.concat();
    floors.sort();
    floors
}

const STORES: [(Reached, u64); 2] = [
    (Reached::Stored, 15_000),
    (Reached::StoredRolledOver, 2_500),
];

/// Those of the part on which a data byte waits: with the next counted rise, as CS# rises, and lost; and
/// what leaves it waiting.
const LATE_STORES: [(Reached, u64); 8] = [
    (Reached::Stored, 10_000),
    (Reached::StoredRolledOver, 1_600),
    (Reached::StoredAsCsRises, 3_300),
    (Reached::StoredAsCsRisesHeld, 220),
    (Reached::DroppedAsCsRises, 5_000),
    (Reached::FallWaiting, 34_000),
    (Reached::HeldRiseWaiting, 2_900),
    (Reached::WaitingLost, 230),
];

const SPI: [(Reached, u64); 16] = [
    (Reached::Protected, 3_000),
    (Reached::NotEnabled, 12_000),
    (Reached::Read, 70_000),
    (Reached::ReadRolledOver, 10_000),
    (Reached::Status, 25_000),
    (Reached::StatusRepeated, 70_000),
    (Reached::HeldEdge, 60_000),
    (Reached::ShownAfterHold, 800),
    (Reached::RiseSincePowerOn, 5_000),
    (Reached::Wren, 18_000),
    (Reached::Wrdi, 2_000),
    (Reached::WriteEnd, 11_000),
    (Reached::Wrsr, 3_000),
    (Reached::WrsrLocked, 200),
    (Reached::WrsrNotEnabled, 2_000),
    (Reached::LackedCode, 12_000),
];

const IDENTITY: [(Reached, u64); 2] = [(Reached::Identity, 35_000), (Reached::IdentityOver, 5_500)];

const FAST_READ_AND_SLEEP: [(Reached, u64); 5] = [
    (Reached::FastRead, 55_000),
    (Reached::FastReadRolledOver, 7_500),
    (Reached::RiseAsleep, 35_000),
    (Reached::Sleep, 2_000),
    (Reached::Wake, 1_500),
];

const I2C: [(Reached, u64); 14] = [
    (Reached::Dropped, 10_000),
    (Reached::StartAgain, 20_000),
    (Reached::Stop, 45_000),
    (Reached::OtherWord, 14_000),
    (Reached::AddressSent, 22_000),
    (Reached::ReadUnused, 8_000),
    (Reached::ReadUsed, 2_500),
    (Reached::ReadFromZero, 150),
    (Reached::ReadOn, 11_000),
    (Reached::ReadOnRolledOver, 300),
    (Reached::ReadEnded, 14_000),
    (Reached::WordAcknowledged, 45_000),
    (Reached::ByteAcknowledged, 85_000),
    (Reached::ZeroSent, 110_000),
];

/// What only part 4 has: the two halves of its memory.
const A16: [(Reached, u64); 4] = [
    (Reached::ReadOverBorder, 120),
    (Reached::A16Replaced, 4_000),
    (Reached::A16ReplacedUsed, 2_700),
    (Reached::A16ReplacedAtBorder, 250),
];
