//! "The five parts": document 01's table and its protected ranges, written a second time, with what ask
//! 6 says of one part.

/// A line of the table.
pub enum Part {
    Spi(SpiPart),
    I2c(I2cPart),
}

pub struct SpiPart {
    pub size: usize,
    pub address_bits: usize,
    /// "Commands besides the six".
    pub more: &'static [u8],
    pub identity: [u8; 3],
    /// Saved bits, "0 to 7 as SRWD BP1 BP0 for parts 1 and 2; else 0".
    pub max_bits: u32,
    /// "Status bits are saved over power loss for part 1 (000), lost for part 0 (003), saved for part
    /// 2 (house)."
    pub keeps_bits: bool,
    /// "Protected ranges, BP1 BP0 = 01, 10, 11 .. each to the top"; "size itself for 00".
    pub protected_from: [usize; 4],
    /// "when the MR45V100A really stores .. on that part a finished data byte waits".
    pub waits: bool,
}

pub struct I2cPart {
    pub size: usize,
    /// Address pins, "0 to 7 as A2 A1 A0 for part 3; 0 to 3 as A2 A1 for part 4".
    pub max_pins: u32,
    /// "A16 in the word".
    pub a16: bool,
}

pub static PARTS: [Part; 5] = [
    Part::Spi(SpiPart {
        size: 4_096,
        address_bits: 16,
        more: &[],
        identity: [0; 3],
        max_bits: 0,
        keeps_bits: false,
        protected_from: [4_096, 0xc00, 0x800, 0x000],
        waits: false,
    }),
    Part::Spi(SpiPart {
        size: 131_072,
        address_bits: 24,
        more: &[opcode::FSTRD, opcode::RDID, opcode::SLEEP],
        identity: [0xae, 0x83, 0x09],
        max_bits: 7,
        keeps_bits: true,
        protected_from: [131_072, 0x18000, 0x10000, 0],
        waits: true,
    }),
    Part::Spi(SpiPart {
        size: 262_144,
        address_bits: 24,
        more: &[opcode::RDID],
        identity: [0xae, 0x83, 0x1a],
        max_bits: 7,
        keeps_bits: true,
        protected_from: [262_144, 0x30000, 0x20000, 0],
        waits: false,
    }),
    Part::I2c(I2cPart {
        size: 8_192,
        max_pins: 7,
        a16: false,
    }),
    Part::I2c(I2cPart {
        size: 131_072,
        max_pins: 3,
        a16: true,
    }),
];

/// "WREN 06, WRDI 04, RDSR 05, WRSR 01, READ 03, WRITE 02, FSTRD 0B, RDID 9F, SLEEP B9."
pub mod opcode {
    pub const WREN: u8 = 0x06;
    pub const WRDI: u8 = 0x04;
    pub const RDSR: u8 = 0x05;
    pub const WRSR: u8 = 0x01;
    pub const READ: u8 = 0x03;
    pub const WRITE: u8 = 0x02;
    pub const FSTRD: u8 = 0x0b;
    pub const RDID: u8 = 0x9f;
    pub const SLEEP: u8 = 0xb9;
    pub const SIX: [u8; 6] = [WREN, WRDI, RDSR, WRSR, READ, WRITE];
}

impl Part {
    pub fn size(&self) -> usize {
        match self {
            Part::Spi(part) => part.size,
            Part::I2c(part) => part.size,
        }
    }

    /// What a making takes at most: address pins and saved bits.
    pub fn most(&self) -> (u32, u32) {
        match self {
            Part::Spi(part) => (0, part.max_bits),
            Part::I2c(part) => (part.max_pins, 0),
        }
    }
}

/// Bits as a number, most significant first.
pub fn number(bits: &[bool]) -> usize {
    bits.iter().fold(0, |sum, &bit| 2 * sum + usize::from(bit))
}
