//! "SPI rules" in document 01's own terms: the bits of a selection's counted rises, their number n,
//! and the h of each command. Its sentences, and those of ask 6, stand beside the lines that they are
//! kept by.

use crate::part::opcode::{FSTRD, RDID, RDSR, READ, SIX, SLEEP, WRDI, WREN, WRITE, WRSR};
use crate::part::{number, SpiPart};
use crate::reading::{Reached, Step, NOTHING};

// "SPI sample: bit 0 CS#, 1 SCK, 2 SI, 3 WP#, 4 HOLD#".
const CS: u8 = 1 << 0;
const SCK: u8 = 1 << 1;
const SI: u8 = 1 << 2;
const WP: u8 = 1 << 3;
const HOLD: u8 = 1 << 4;

/// "A selection runs from CS# falling to CS# rising."
#[derive(Default)]
struct Selection {
    /// The bits that entered, one at each counted rise; n is their number.
    bits: Vec<bool>,
    /// What was last put out, if anything was.
    shown: Option<u8>,
}

/// A part from power on to power off.
pub struct Spi {
    part: &'static SpiPart,
    /// SRWD BP1 BP0.
    pub bits: u8,
    wel: bool,
    asleep: bool,
    /// The sample before.
    old: u8,
    /// None while CS# is 1, in the selection after SLEEP, and with CS# 0 since power on.
    selection: Option<Selection>,
}

impl Spi {
    /// "Power on clears WEL and sleep." "Power on with CS# 0: deaf until CS# has been 1."
    pub fn power_on(part: &'static SpiPart, bits: u8, sample: u8) -> Spi {
        Spi {
            part,
            bits,
            wel: false,
            asleep: false,
            old: sample,
            selection: None,
        }
    }

    /// "Held or unselected, the answer is 2; after a hold the earlier bit is shown again."
    pub fn answer(&self) -> u8 {
        let shown = self.selection.as_ref().and_then(|open| open.shown);
        if self.old & CS != 0 || self.old & HOLD == 0 {
            NOTHING
        } else {
            shown.unwrap_or(NOTHING)
        }
    }

    pub fn sample(&mut self, new: u8, memory: &mut [u8]) -> Step {
        let old = std::mem::replace(&mut self.old, new);
        let mut step = match (old & CS != 0, new & CS != 0) {
            (true, true) => Step::default(),
            (true, false) => self.begin(),
            (false, true) => {
                let last = self.last_byte(old & HOLD == 0, memory);
                self.end(new & WP != 0).after(last)
            }
            (false, false) => self.selected(old, new, memory),
        };
        // "a sample's WP level differs from that of the sample before and .. CS# is 0 in both SPI
        // samples"
        step.flag = old & WP != new & WP && old & CS == 0 && new & CS == 0;
        step
    }

    /// CS# falls. "The next selection is deaf" after SLEEP.
    fn begin(&mut self) -> Step {
        self.selection = (!self.asleep).then(Selection::default);
        Step::default()
    }

    /// "A clock edge counts only if CS# is 0 and HOLD# is 1 in the old and the new sample (house for
    /// edges in the same sample)."
    fn selected(&mut self, old: u8, new: u8, memory: &mut [u8]) -> Step {
        let edge = (old & SCK != 0, new & SCK != 0);
        if old & HOLD == 0 || new & HOLD == 0 {
            let waits = self.waits().is_some();
            return match self.answer() {
                NOTHING if waits && edge == (false, true) => Step::at(Reached::HeldRiseWaiting),
                NOTHING => Step::when(edge.0 != edge.1, Reached::HeldEdge),
                _ => Step::at(Reached::ShownAfterHold),
            };
        }
        match edge {
            (false, true) => self.rise(new & SI != 0, memory),
            (true, false) => self.fall(memory),
            _ => Step::default(),
        }
    }

    /// The code, once it is whole. "A code the part lacks makes it deaf: no answer, no effect".
    fn opcode(&self) -> Option<u8> {
        let code = self.selection.as_ref()?.bits.get(..8)?;
        let code = number(code) as u8;
        (SIX.contains(&code) || self.part.more.contains(&code)).then_some(code)
    }

    /// The rises up to the end of the address.
    fn head(&self) -> usize {
        8 + self.part.address_bits
    }

    /// The address of data byte number k: "go up from the address and roll over to 0", "An address
    /// counts modulo the size". Whether the roll-over is behind it.
    fn address(&self, bits: &[bool], k: usize) -> (usize, bool) {
        let sent = number(&bits[8..self.head()]) % self.part.size;
        ((sent + k) % self.part.size, sent + k >= self.part.size)
    }

    /// "Bits enter on counted rises, most significant first."
    fn rise(&mut self, si: bool, memory: &mut [u8]) -> Step {
        let Some(selection) = &mut self.selection else {
            return Step::at(if self.asleep {
                Reached::RiseAsleep
            } else {
                Reached::RiseSincePowerOn
            });
        };
        let before = selection.bits.len();
        selection.bits.push(si);
        // "a finished data byte waits until .. the next counted clock rise .. and is stored then"
        let finished = if self.part.waits { before } else { before + 1 };
        self.data_byte(finished, memory)
    }

    /// Which data byte of WRITE the first n bits of the selection end with, if they end with one.
    fn finished(&self, n: usize) -> Option<usize> {
        let head = self.head();
        let whole = self.opcode() == Some(WRITE) && n > head && (n - head).is_multiple_of(8);
        whole.then(|| (n - head) / 8 - 1)
    }

    /// "WRITE: if WEL is 1, each data byte is stored at its eighth rise unless its address is
    /// protected. The address goes up by one either way and rolls over." Where data byte number k goes,
    /// or why it is not stored; of one that waited: "Protection, WEL and roll-over are judged as before."
    fn judged(&self, bits: &[bool], k: usize) -> Result<(usize, bool), Reached> {
        let (address, rolled) = self.address(bits, k);
        if !self.wel {
            Err(Reached::NotEnabled)
        } else if address >= self.part.protected_from[usize::from(self.bits & 0b11)] {
            Err(Reached::Protected)
        } else {
            Ok((address, rolled))
        }
    }

    /// The data byte that ends with the first n bits, if one does.
    fn data_byte(&self, n: usize, memory: &mut [u8]) -> Step {
        let (Some(k), Some(Selection { bits, .. })) = (self.finished(n), &self.selection) else {
            return Step::default();
        };
        match self.judged(bits, k) {
            Ok((address, rolled)) => {
                memory[address] = number(&bits[n - 8..n]) as u8;
                Step::stored(address, rolled)
            }
            Err(reached) => Step::at(reached),
        }
    }

    /// "a finished data byte waits": its number among those of its selection, if one does.
    fn waits(&self) -> Option<usize> {
        let n = self.selection.as_ref()?.bits.len();
        self.finished(n).filter(|_| self.part.waits)
    }

    /// Its address and itself.
    pub fn waiting(&self) -> Option<(usize, u8)> {
        let (k, Selection { bits, .. }) = (self.waits()?, self.selection.as_ref()?);
        let byte = number(&bits[bits.len() - 8..]) as u8;
        Some((self.address(bits, k).0, byte))
    }

    /// "A cut in between loses it": whether one waits that would be stored.
    pub fn would_lose(&self) -> bool {
        let bits = self.selection.as_ref().map(|open| &open.bits);
        let judged = bits.zip(self.waits()).map(|(bits, k)| self.judged(bits, k));
        matches!(judged, Some(Ok(_)))
    }

    /// "waits until CS# rises", held or not.
    fn last_byte(&self, held: bool, memory: &mut [u8]) -> Step {
        if self.waits().is_none() {
            return Step::default();
        }
        let n = self.selection.as_ref().map_or(0, |open| open.bits.len());
        let step = self.data_byte(n, memory);
        let reached = match (step.stored, held) {
            (Some(_), false) => Reached::StoredAsCsRises,
            (Some(_), true) => Reached::StoredAsCsRisesHeld,
            (None, _) => Reached::DroppedAsCsRises,
        };
        Step {
            stored: step.stored,
            ..Step::at(reached)
        }
    }

    /// "Output starts after h rises: h = 8 for RDSR and RDID; 8 + address bits for READ; 40 for
    /// FSTRD."
    fn h(&self) -> Option<usize> {
        match self.opcode()? {
            RDSR | RDID => Some(8),
            READ => Some(8 + self.part.address_bits),
            FSTRD => Some(40),
            _ => None,
        }
    }

    /// "At a counted fall after n rises, n at least h, the answer becomes bit 7 - ((n - h) mod 8) of
    /// byte number (n - h) div 8."
    fn fall(&mut self, memory: &[u8]) -> Step {
        let (Some(h), Some(Selection { bits, .. })) = (self.h(), &self.selection) else {
            return Step::when(self.waits().is_some(), Reached::FallWaiting);
        };
        let n = bits.len();
        if n < h {
            return Step::default();
        }
        let (byte, reached) = self.output(bits, (n - h) / 8, memory);
        let shown = byte.map(|byte| byte >> (7 - ((n - h) % 8)) & 1);
        if let Some(selection) = &mut self.selection {
            selection.shown = shown;
        }
        Step::at(reached)
    }

    /// Byte number k of the output. "RDSR repeats the status. READ and FSTRD go up from the address
    /// and roll over to 0. RDID shows three bytes, then 2 (house)."
    fn output(&self, bits: &[bool], k: usize, memory: &[u8]) -> (Option<u8>, Reached) {
        match self.opcode() {
            Some(RDSR) if k == 0 => (Some(self.status()), Reached::Status),
            Some(RDSR) => (Some(self.status()), Reached::StatusRepeated),
            Some(RDID) => match self.part.identity.get(k) {
                Some(&byte) => (Some(byte), Reached::Identity),
                None => (None, Reached::IdentityOver),
            },
            code => {
                let (address, rolled) = self.address(bits, k);
                let reached = match (code == Some(FSTRD), rolled) {
                    (false, false) => Reached::Read,
                    (false, true) => Reached::ReadRolledOver,
                    (true, false) => Reached::FastRead,
                    (true, true) => Reached::FastReadRolledOver,
                };
                (Some(memory[address]), reached)
            }
        }
    }

    /// "Status: bit 7 SRWD, 3 BP1, 2 BP0, 1 WEL, rest 0."
    fn status(&self) -> u8 {
        let srwd = self.bits >> 2 & 1;
        let bp1 = self.bits >> 1 & 1;
        let bp0 = self.bits & 1;
        srwd << 7 | bp1 << 3 | bp0 << 2 | u8::from(self.wel) << 1
    }

    /// CS# rises; WP# is that of the same sample. Of the selection that a part sleeps through:
    /// "wakes the part at its end". "WEL is kept (house)."
    fn end(&mut self, wp: bool) -> Step {
        let code = self.opcode();
        let Some(Selection { bits, .. }) = self.selection.take() else {
            let slept = std::mem::take(&mut self.asleep);
            return Step::when(slept, Reached::Wake);
        };
        match code {
            // "WREN sets and WRDI clears WEL when CS# rises; bits after the code are ignored"
            Some(WREN) => {
                self.wel = true;
                Step::at(Reached::Wren)
            }
            Some(WRDI) => {
                self.wel = false;
                Step::at(Reached::Wrdi)
            }
            // "SLEEP takes effect when CS# rises; later bits are ignored."
            Some(SLEEP) => {
                self.asleep = true;
                Step::at(Reached::Sleep)
            }
            Some(WRSR) if bits.len() >= 8 + 8 => self.write_status(&bits[8..16], wp),
            // "At the end of a WRITE or WRSR selection with at least one whole data byte WEL becomes
            // 0, protected or not"
            Some(WRITE) if bits.len() >= self.head() + 8 => {
                self.wel = false;
                Step::at(Reached::WriteEnd)
            }
            Some(_) => Step::default(),
            None => Step::when(bits.len() >= 8, Reached::LackedCode),
        }
    }

    /// "WRSR: when CS# rises after at least one whole data byte and WEL is 1, the first data byte's
    /// bits 7, 3, 2 are taken, unless SRWD is 1 and WP# is 0 in that sample." With a whole data byte
    /// "WEL becomes 0".
    fn write_status(&mut self, first: &[bool], wp: bool) -> Step {
        let enabled = std::mem::take(&mut self.wel);
        let srwd = self.bits & 0b100 != 0;
        if !enabled {
            Step::at(Reached::WrsrNotEnabled)
        } else if srwd && !wp {
            Step::at(Reached::WrsrLocked)
        } else {
            // Bit 7 came first.
            let bit = |place: usize| first[7 - place];
            self.bits = number(&[bit(7), bit(3), bit(2)]) as u8;
            Step::at(Reached::Wrsr)
        }
    }
}
