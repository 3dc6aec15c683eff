//! "SPI rules": a part under power on the SPI bus.

use crate::event::Given;
use crate::part::spi_pin::{CS, HOLD, SCK, SI, WP};
use crate::part::{Op, Part};
use crate::{HIGH, LOW, NOTHING};

/// What the part waits for.
#[derive(Clone, Copy, Debug, PartialEq, Eq)]
pub(crate) enum Phase {
    /// Not selected.
    Rest,
    /// The part drives, stores and sets nothing until CS# rises.
    Deaf,
    Code,
    ReadAddress,
    FstrdAddress,
    WriteAddress,
    /// The eight bits between address and output of FSTRD.
    Dummy,
    /// A data byte of WRITE.
    Data,
    /// A data byte of WRITE came in whole, and is stored once it is followed.
    Waiting,
    /// The first data byte of WRSR.
    StatusData,
    /// These three show.
    Memory,
    Register,
    Identity,
    /// These four wait for CS# to rise.
    Wren,
    Wrdi,
    Sleep,
    Wrsr,
}

impl Phase {
    /// Whether a field comes in.
    fn takes(self) -> bool {
        use Phase::*;
        let address = matches!(self, ReadAddress | FstrdAddress | WriteAddress);
        address || matches!(self, Code | Dummy | Data | StatusData)
    }

    /// Whether a byte goes out.
    fn shows(self) -> bool {
        matches!(self, Phase::Memory | Phase::Register | Phase::Identity)
    }
}

/// A selection, told by the counted rises of what is under way. A number that its phase has no use
/// for is 0, so that each state has one form.
#[derive(Clone, Debug, PartialEq, Eq)]
pub(crate) struct Selection {
    pub phase: Phase,
    /// The counted rises of the field that comes in, or of the byte that is shown.
    pub rises: u8,
    /// Of Data whether a byte was whole before; of Waiting the byte; of Identity the byte's place, 3
    /// past the last; of Wrsr the first data byte.
    pub detail: u8,
    /// The bit shown while not held.
    pub shown: u8,
    /// The number that the bits of the field make.
    pub field: u32,
    /// Of Dummy, Data, Waiting and Memory, below the size.
    pub address: u32,
}

impl Selection {
    /// At the start of a phase, with nothing shown.
    fn at(phase: Phase) -> Selection {
        Selection {
            phase,
            rises: 0,
            detail: 0,
            shown: NOTHING,
            field: 0,
            address: 0,
        }
    }

    /// On to the next phase, or to the next byte of the same; what is shown stays until a fall.
    fn go(&mut self, phase: Phase, address: u32, detail: u8) {
        self.phase = phase;
        self.rises = 0;
        self.field = 0;
        self.address = address;
        self.detail = detail;
    }
}

/// A SPI part from power on to power off.
#[derive(Clone, Debug, PartialEq, Eq)]
pub struct Spi {
    pub(crate) part: &'static Part,
    /// SRWD BP1 BP0.
    pub(crate) bits: u8,
    pub(crate) wel: bool,
    pub(crate) asleep: bool,
    pub(crate) old: u8,
    /// At rest while CS# is 1.
    pub(crate) selection: Selection,
}

impl Spi {
    /// The part comes up awake, with WEL clear; if CS# is low it ignores the bus until CS# rises.
    pub fn power_on(part: &'static Part, bits: u8, sample: u8) -> Spi {
        Spi {
            part,
            bits,
            wel: false,
            asleep: false,
            old: sample,
            selection: Selection::at(if sample & CS == 0 {
                Phase::Deaf
            } else {
                Phase::Rest
            }),
        }
    }

    pub fn bits(&self) -> u8 {
        self.bits
    }

    /// CS# was 0 in the last sample.
    pub(crate) fn selected(&self) -> bool {
        self.old & CS == 0
    }

    /// Nothing is driven while the part is held or unselected; a hold leaves the bit shown.
    pub fn answer(&self) -> u8 {
        if self.old & (CS | HOLD) == HOLD {
            self.selection.shown
        } else {
            NOTHING
        }
    }

    /// The next sample. SCK counts while both samples have the part selected and not held. WP# is
    /// to stand still while both have it selected, held or not and whatever the part makes of it.
    #[inline]
    pub(crate) fn sample(&mut self, new: u8, memory: &mut [u8]) -> Given {
        let old = std::mem::replace(&mut self.old, new);
        let changed = old ^ new;
        if changed & CS != 0 {
            if new & CS == 0 {
                self.begin_selection();
            } else {
                self.end_selection(new & WP != 0, memory);
                self.rest();
            }
        } else if changed & SCK != 0 && new & CS == 0 && old & new & HOLD != 0 {
            self.clock_edge(new, memory);
        }
        Given {
            answer: self.answer(),
            flag: changed & WP != 0 && (old | new) & CS == 0,
        }
    }

    #[inline]
    fn clock_edge(&mut self, new: u8, memory: &mut [u8]) {
        if new & SCK != 0 {
            self.rise(new & SI != 0, memory);
        } else {
            self.fall(memory);
        }
    }

    /// CS# falls: the part waits for a code, or sleeps through the selection.
    fn begin_selection(&mut self) {
        self.selection = Selection::at(if self.asleep {
            Phase::Deaf
        } else {
            Phase::Code
        });
    }

    /// No selection is open.
    pub(crate) fn rest(&mut self) {
        self.selection = Selection::at(Phase::Rest);
    }

    /// A counted rise brings in one bit, or goes on to the next one of what is shown. A byte that waits
    /// is stored with it, and the bit is the first of the next byte.
    #[inline]
    fn rise(&mut self, si: bool, memory: &mut [u8]) {
        if self.selection.phase == Phase::Waiting {
            self.store_waiting(memory);
        }
        let selection = &mut self.selection;
        if selection.phase.takes() {
            selection.rises += 1;
            selection.field = selection.field << 1 | u32::from(si);
            if selection.rises.is_multiple_of(8) {
                self.whole_byte(memory);
            }
        } else if selection.phase.shows() {
            selection.rises += 1;
            if selection.rises == 8 {
                self.next_byte();
            }
        }
    }

    /// A shown byte is over: memory goes up and rolls over, the identity ends behind its third.
    fn next_byte(&mut self) {
        let selection = &mut self.selection;
        selection.rises = 0;
        match selection.phase {
            Phase::Memory => selection.address = next(self.part, selection.address),
            Phase::Identity => selection.detail = (selection.detail + 1).min(3),
            _ => {}
        }
    }

    /// What a byte means that became whole with this rise.
    fn whole_byte(&mut self, memory: &mut [u8]) {
        let selection = &mut self.selection;
        let address_whole = u64::from(selection.rises) == self.part.address_bits;
        let sent = self.part.wrap(u64::from(selection.field)) as u32;
        let address = selection.address;
        match selection.phase {
            Phase::Code => {
                let code = selection.field as u8;
                selection.go(after_code(self.part.op(code)), 0, 0);
            }
            Phase::ReadAddress if address_whole => selection.go(Phase::Memory, sent, 0),
            Phase::FstrdAddress if address_whole => selection.go(Phase::Dummy, sent, 0),
            Phase::WriteAddress if address_whole => selection.go(Phase::Data, sent, 0),
            Phase::Dummy => selection.go(Phase::Memory, address, 0),
            Phase::StatusData => {
                let first = selection.field as u8;
                selection.go(Phase::Wrsr, 0, first);
            }
            Phase::Data => {
                let byte = selection.field as u8;
                selection.go(Phase::Waiting, address, byte);
                if !self.part.stores_late {
                    self.store_waiting(memory);
                }
            }
            _ => {}
        }
    }

    /// The data byte that waits is stored, unless WEL is clear or its address protected; the next one
    /// may come in.
    fn store_waiting(&mut self, memory: &mut [u8]) {
        let Selection {
            address, detail, ..
        } = self.selection;
        if self.wel && !self.part.protects(self.bits, address as usize) {
            memory[address as usize] = detail;
        }
        self.selection.go(Phase::Data, next(self.part, address), 1);
    }

    /// A counted fall shows the bit that the rises have come to, from bit 7 of the byte on. Before
    /// the output there is none to show.
    #[inline]
    fn fall(&mut self, memory: &[u8]) {
        let selection = &mut self.selection;
        let byte = match selection.phase {
            Phase::Memory => Some(memory[selection.address as usize]),
            Phase::Register => Some(status_byte(self.bits, self.wel)),
            Phase::Identity => self.part.id.get(usize::from(selection.detail)).copied(),
            _ => return,
        };
        selection.shown = match byte.map(|byte| byte >> (7 - selection.rises) & 1) {
            Some(0) => LOW,
            Some(_) => HIGH,
            None => NOTHING,
        };
    }

    /// The byte of the status register.
    pub(crate) fn status(&self) -> u8 {
        status_byte(self.bits, self.wel)
    }

    /// CS# rises. If the part slept through the selection it wakes now. A byte that waits is stored,
    /// and then data that was whole ends WEL, whatever became of it.
    fn end_selection(&mut self, wp: bool, memory: &mut [u8]) {
        if self.selection.phase == Phase::Waiting {
            self.store_waiting(memory);
        }
        let Selection { phase, detail, .. } = self.selection;
        self.asleep = !self.asleep && phase == Phase::Sleep;
        match phase {
            Phase::Wren => self.wel = true,
            Phase::Wrdi => self.wel = false,
            Phase::Wrsr => {
                if self.wel {
                    self.write_status(detail, wp);
                }
                self.wel = false;
            }
            Phase::Data if detail != 0 => self.wel = false,
            _ => {}
        }
    }

    /// WRSR's byte becomes SRWD BP1 BP0, but not while SRWD is set and WP# low as CS# rises.
    fn write_status(&mut self, first: u8, wp: bool) {
        if self.bits & 4 == 0 || wp {
            self.bits = first >> 5 & 4 | first >> 2 & 3;
        }
    }
}

/// The phase behind a whole code: the part is deaf if it lacks it.
fn after_code(op: Option<Op>) -> Phase {
    match op {
        None => Phase::Deaf,
        Some(Op::Wren) => Phase::Wren,
        Some(Op::Wrdi) => Phase::Wrdi,
        Some(Op::Rdsr) => Phase::Register,
        Some(Op::Wrsr) => Phase::StatusData,
        Some(Op::Read) => Phase::ReadAddress,
        Some(Op::Write) => Phase::WriteAddress,
        Some(Op::Fstrd) => Phase::FstrdAddress,
        Some(Op::Rdid) => Phase::Identity,
        Some(Op::Sleep) => Phase::Sleep,
    }
}

/// One up, and 0 behind the top.
fn next(part: &Part, address: u32) -> u32 {
    part.wrap(u64::from(address) + 1) as u32
}

/// SRWD BP1 BP0 and WEL as the register has them, with SRWD on top.
pub(crate) fn status_byte(bits: u8, wel: bool) -> u8 {
    (bits & 4) << 5 | (bits & 3) << 2 | u8::from(wel) << 1
}
