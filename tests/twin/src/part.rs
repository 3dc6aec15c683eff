//! "The five parts": the one constant table, the protected ranges, the SPI codes and the bits of a
//! sample.

/// The bits of an SPI sample.
pub mod spi_pin {
    pub const CS: u8 = 1;
    pub const SCK: u8 = 2;
    pub const SI: u8 = 4;
    pub const WP: u8 = 8;
    pub const HOLD: u8 = 16;
}

/// The bits of an I2C sample; SDA is without the part's own pull.
pub mod i2c_pin {
    pub const SCL: u8 = 1;
    pub const SDA: u8 = 2;
    pub const WP: u8 = 4;
}

#[derive(Clone, Copy, Debug, PartialEq, Eq)]
pub enum Wires {
    Spi,
    I2c,
}

/// The nine SPI commands.
#[derive(Clone, Copy, Debug, PartialEq, Eq)]
pub enum Op {
    Wren,
    Wrdi,
    Rdsr,
    Wrsr,
    Read,
    Write,
    Fstrd,
    Rdid,
    Sleep,
}

/// The codes that each SPI part knows.
const SIX: [(u8, Op); 6] = [
    (0x06, Op::Wren),
    (0x04, Op::Wrdi),
    (0x05, Op::Rdsr),
    (0x01, Op::Wrsr),
    (0x03, Op::Read),
    (0x02, Op::Write),
];

/// One line of the table.
#[derive(Debug, PartialEq, Eq)]
pub struct Part {
    pub number: u32,
    pub name: &'static str,
    pub wires: Wires,
    /// Bytes of memory; each size is a power of two.
    pub size: usize,
    /// Address bits that a SPI command carries, or those of the two I2C address bytes.
    pub address_bits: u64,
    /// The commands besides the six.
    pub more: &'static [(u8, Op)],
    /// What RDID shows.
    pub id: [u8; 3],
    /// The highest number of the address pins at making.
    pub max_pins: u32,
    /// The highest number of the saved bits at making.
    pub max_bits: u32,
    /// Whether the status bits outlive a loss of power.
    pub keeps_bits: bool,
    /// Whether a data byte of WRITE is stored only once it is followed, by the next counted rise or by
    /// CS# rising; else with its eighth rise.
    pub stores_late: bool,
}

pub static PARTS: [Part; 5] = [
    Part {
        number: 0,
        name: "MR45V032A",
        wires: Wires::Spi,
        size: 4_096,
        address_bits: 16,
        more: &[],
        id: [0; 3],
        max_pins: 0,
        max_bits: 0,
        keeps_bits: false,
        stores_late: false,
    },
    Part {
        number: 1,
        name: "MR45V100A",
        wires: Wires::Spi,
        size: 131_072,
        address_bits: 24,
        more: &[(0x0b, Op::Fstrd), (0x9f, Op::Rdid), (0xb9, Op::Sleep)],
        id: [0xae, 0x83, 0x09],
        max_pins: 0,
        max_bits: 7,
        keeps_bits: true,
        stores_late: true,
    },
    Part {
        number: 2,
        name: "MR45V200B",
        wires: Wires::Spi,
        size: 262_144,
        address_bits: 24,
        more: &[(0x9f, Op::Rdid)],
        id: [0xae, 0x83, 0x1a],
        max_pins: 0,
        max_bits: 7,
        keeps_bits: true,
        stores_late: false,
    },
    Part {
        number: 3,
        name: "MR44V064B",
        wires: Wires::I2c,
        size: 8_192,
        address_bits: 16,
        more: &[],
        id: [0; 3],
        max_pins: 7,
        max_bits: 0,
        keeps_bits: false,
        stores_late: false,
    },
    Part {
        number: 4,
        name: "MS85RC1MTY",
        wires: Wires::I2c,
        size: 131_072,
        address_bits: 16,
        more: &[],
        id: [0; 3],
        max_pins: 3,
        max_bits: 0,
        keeps_bits: false,
        stores_late: false,
    },
];

impl Part {
    /// Addresses are taken modulo the size.
    pub fn wrap(&self, address: u64) -> usize {
        address as usize & (self.size - 1)
    }

    /// The command of a code, if this part has it.
    pub fn op(&self, code: u8) -> Option<Op> {
        let find = |&&(known, _): &&(u8, Op)| known == code;
        let found = SIX
            .iter()
            .find(find)
            .or_else(|| self.more.iter().find(find));
        found.map(|&(_, op)| op)
    }

    /// A code and an address as a SPI part takes them.
    pub fn addressed(&self, code: u8, address: usize) -> Vec<u8> {
        let width = self.address_bits as usize / 8;
        let address = (address as u32).to_be_bytes();
        [&[code], &address[4 - width..]].concat()
    }

    /// The highest sample number.
    pub fn max_sample(&self) -> u8 {
        match self.wires {
            Wires::Spi => 31,
            Wires::I2c => 7,
        }
    }

    /// The bit of write protect in a sample.
    pub fn protect_pin(&self) -> u8 {
        match self.wires {
            Wires::Spi => spi_pin::WP,
            Wires::I2c => i2c_pin::WP,
        }
    }

    /// Where the protected range starts with these bits (SRWD BP1 BP0). By BP1 BP0 it is none of the
    /// memory, the upper quarter, the upper half or all; none starts at the size itself.
    pub fn protected_from(&self, bits: u8) -> usize {
        let protected = match bits & 0b11 {
            0b00 => 0,
            0b01 => self.size / 4,
            0b10 => self.size / 2,
            _ => self.size,
        };
        self.size - protected
    }

    /// Whether these bits (SRWD BP1 BP0) protect this address.
    pub fn protects(&self, bits: u8, address: usize) -> bool {
        address >= self.protected_from(bits)
    }
}
