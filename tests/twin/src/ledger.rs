//! "The ledger of demand 3": what memory and saved bits a cut leaves, told over selections and
//! starts. It is fed the accepted events with their answers and calls nothing of the model; only
//! the part table, the protected ranges, the codes and the bits of a sample are shared. By the same
//! means it tells of each event whether it has the warning flag.

use crate::part::{i2c_pin, spi_pin, Op, Part, Wires, PARTS};

/// The whole commands that decide an enable, in their order since power on.
#[derive(Clone, Copy, Debug, PartialEq, Eq)]
enum Mark {
    Wren,
    Wrdi,
    /// A WRITE or WRSR that had a whole data byte.
    Data,
}

/// What the ledger knows of the time since power on.
#[derive(Clone, Debug)]
struct Since {
    /// The last sample, and whether the line was high with its answer.
    sample: u8,
    line: bool,
    marks: Vec<Mark>,
    /// A whole SLEEP came, and no selection since.
    slept: bool,
    /// The bits of the open selection, or those since the last START.
    open: Option<Vec<bool>>,
}

/// The bytes and bits as the permitted writes left them.
#[derive(Clone, Debug)]
pub struct Ledger {
    part: &'static Part,
    pins: u8,
    memory: Vec<u8>,
    /// Permitted writes so far.
    stored: u64,
    bits: u8,
    since: Option<Since>,
}

impl Ledger {
    /// It begins with the memory as it is before any event and the bits of the making; one that is
    /// refused makes part 0, with pins and bits 0.
    pub fn begin(part: u32, pins: u32, bits: u32, memory: &[u8]) -> Ledger {
        let known = PARTS.get(part as usize);
        let made = known.filter(|part| pins <= part.max_pins && bits <= part.max_bits);
        let (part, pins, bits) = made.map_or((&PARTS[0], 0, 0), |part| (part, pins, bits));
        Ledger {
            part,
            pins: pins as u8,
            memory: memory.to_vec(),
            stored: 0,
            bits: bits as u8,
            since: None,
        }
    }

    /// The memory, now and after a cut.
    pub fn memory(&self) -> &[u8] {
        &self.memory
    }

    /// How many bytes were stored, also where they were the same as before.
    pub fn stored(&self) -> u64 {
        self.stored
    }

    /// The bits as they stand.
    pub fn bits(&self) -> u8 {
        self.bits
    }

    /// The bits after a cut, which without power does nothing; under power part 0 loses them.
    pub fn bits_after_cut(&self) -> u8 {
        if self.since.is_some() && !self.part.keeps_bits {
            0
        } else {
            self.bits
        }
    }

    /// An accepted event and its answer; true if write protect moved with it where it is to stand
    /// still.
    pub fn feed(&mut self, event: &[u8], answer: u8) -> bool {
        let warned = self.warned(event);
        match (event, self.part.wires) {
            (&[1 | 2, sample, ..], wires) => {
                self.since = Some(Since {
                    sample,
                    line: wires == Wires::I2c && line(sample, answer),
                    marks: Vec::new(),
                    slept: false,
                    open: None,
                });
            }
            (&[3, ..], _) => {
                self.bits = self.bits_after_cut();
                self.since = None;
            }
            (&[4, sample, ..], Wires::Spi) => self.spi_sample(sample),
            (&[4, sample, ..], Wires::I2c) => self.i2c_sample(sample, answer),
            _ => {}
        }
        warned
    }

    /// Whether an event that is yet to be entered has the flag: a sample with another level of write
    /// protect than the last one had. On SPI both have CS# 0; the ledger need not have a selection
    /// open, since there is none after SLEEP, nor with CS# 0 from power on. On I2C a START came, and
    /// no STOP since.
    fn warned(&self, event: &[u8]) -> bool {
        let (&[4, new, ..], Some(since)) = (event, &self.since) else {
            return false;
        };
        let moved = |wire: u8| since.sample & wire != new & wire;
        let low = |wire: u8| since.sample & wire == 0 && new & wire == 0;
        match self.part.wires {
            Wires::Spi => low(spi_pin::CS) && moved(spi_pin::WP),
            Wires::I2c => since.open.is_some() && moved(i2c_pin::WP),
        }
    }

    fn spi_sample(&mut self, new: u8) {
        use spi_pin::{CS, HOLD, SCK, SI};
        let Some(since) = &mut self.since else { return };
        let old = std::mem::replace(&mut since.sample, new);
        let selected = |sample: u8| sample & CS == 0;
        let running = |sample: u8| sample & (CS | HOLD) == HOLD;
        let high = |sample: u8| sample & SCK != 0;
        if !selected(old) && selected(new) {
            // A selection that follows SLEEP is left out.
            let none = std::mem::take(&mut since.slept);
            since.open = (!none).then(Vec::new);
        } else if selected(old) && !selected(new) {
            if let Some(bits) = since.open.take() {
                self.selection_ends(&bits, new);
            }
        } else if running(old) && running(new) && !high(old) && high(new) {
            if let Some(bits) = &mut since.open {
                bits.push(new & SI != 0);
                self.selection_grew();
            }
        }
    }

    /// A counted rise came: a data byte of a WRITE may be whole with it. On a part that stores late this
    /// is the byte that the rise follows, and its bits are those before the rise.
    fn selection_grew(&mut self) {
        let Some(bits) = self.since.as_ref().and_then(|since| since.open.as_ref()) else {
            return;
        };
        let followed = bits.len() - usize::from(self.part.stores_late);
        if let Some((address, byte)) = self.whole_data(&bits[..followed]) {
            self.store(address, byte);
        }
    }

    /// The data byte of a WRITE with its enable that ends with these bits of the open selection, if
    /// the ledger's bits do not protect its address; and this address.
    fn whole_data(&self, bits: &[bool]) -> Option<(usize, u8)> {
        let head = self.head();
        let enabled = self.since.as_ref().is_some_and(Since::enabled);
        if bits.len() <= head || !bits.len().is_multiple_of(8) || !enabled {
            return None;
        }
        if self.op(bits) != Some(Op::Write) {
            return None;
        }
        let behind = (bits.len() - head) / 8 - 1;
        let address = (number(&bits[8..head]) + behind) % self.part.size;
        let byte = number(&bits[bits.len() - 8..]) as u8;
        (address < self.part.protected_from(self.bits)).then_some((address, byte))
    }

    /// A permitted write.
    fn store(&mut self, address: usize, byte: u8) {
        self.memory[address] = byte;
        self.stored += 1;
    }

    /// CS# rose: WREN, WRDI and SLEEP are whole after their code, WRSR with a data byte. On a part that
    /// stores late it follows the last data byte of a WRITE, if no bit came behind that.
    fn selection_ends(&mut self, bits: &[bool], sample: u8) {
        let last = self.whole_data(bits).filter(|_| self.part.stores_late);
        if let Some((address, byte)) = last {
            self.store(address, byte);
        }
        let op = self.op(bits);
        let head = self.head();
        let Some(since) = &mut self.since else { return };
        match op {
            Some(Op::Wren) => since.marks.push(Mark::Wren),
            Some(Op::Wrdi) => since.marks.push(Mark::Wrdi),
            Some(Op::Sleep) => since.slept = true,
            Some(Op::Write) if bits.len() >= head + 8 => since.marks.push(Mark::Data),
            Some(Op::Wrsr) if bits.len() >= 16 => {
                let locked = self.bits >= 4 && sample & spi_pin::WP == 0;
                if since.enabled() && !locked {
                    let taken = [bits[8], bits[12], bits[13]];
                    self.bits = number(&taken) as u8;
                }
                since.marks.push(Mark::Data);
            }
            _ => {}
        }
    }

    /// The command of a selection whose code is whole.
    fn op(&self, bits: &[bool]) -> Option<Op> {
        let code = bits.get(..8)?;
        self.part.op(number(code) as u8)
    }

    /// The bits of code and address.
    fn head(&self) -> usize {
        8 + self.part.address_bits as usize
    }

    fn i2c_sample(&mut self, new: u8, answer: u8) {
        use i2c_pin::{SCL, WP};
        let Some(since) = &mut self.since else { return };
        let old = std::mem::replace(&mut since.sample, new);
        let now = line(new, answer);
        let before = std::mem::replace(&mut since.line, now);
        match (old & SCL != 0, new & SCL != 0) {
            // START begins a span and STOP ends it.
            (true, true) if before && !now => since.open = Some(Vec::new()),
            (true, true) if !before && now => since.open = None,
            (false, true) => {
                if let Some(bits) = &mut since.open {
                    bits.push(now);
                    if bits.len() % 9 == 0 && new & WP == 0 {
                        self.span_grew();
                    }
                }
            }
            _ => {}
        }
    }

    /// A byte became whole with WP 0: it is written if it is data behind a write word of the part.
    fn span_grew(&mut self) {
        let Some(bits) = self.since.as_ref().and_then(|since| since.open.as_ref()) else {
            return;
        };
        let bytes = bits.len() / 9;
        let byte = |k: usize| number(&bits[9 * k..9 * k + 8]);
        let own = self
            .write_words()
            .iter()
            .position(|&word| usize::from(word) == byte(0));
        let (Some(a16), 4..) = (own, bytes) else {
            return;
        };
        let sent = a16 * 0x10000 + byte(1) * 0x100 + byte(2);
        let address = (sent + bytes - 4) % self.part.size;
        let byte = byte(bytes - 1) as u8;
        self.store(address, byte);
    }

    /// The part's write words, by their A16: one for part 3, two for part 4.
    fn write_words(&self) -> Vec<u8> {
        if self.part.number == 3 {
            vec![0xa0 + 2 * self.pins]
        } else {
            vec![0xa0 + 4 * self.pins, 0xa2 + 4 * self.pins]
        }
    }
}

impl Since {
    /// WREN was the last of the commands that decide it.
    fn enabled(&self) -> bool {
        self.marks.last() == Some(&Mark::Wren)
    }
}

/// The line's level: high only if SDA is 1 and the part does not pull, by its answer.
fn line(sample: u8, answer: u8) -> bool {
    sample & i2c_pin::SDA != 0 && answer != 0
}

/// Bits as a number, most significant first.
fn number(bits: &[bool]) -> usize {
    bits.iter().fold(0, |sum, &bit| 2 * sum + usize::from(bit))
}
