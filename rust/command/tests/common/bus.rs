//! Hosts that write what they do on the wires as events: SPI selections and I2C transfers.

use sildrokk::trace::{i2c, spi, Event};

/// The bytes of a trace.
pub fn bytes(events: &[Event]) -> Vec<u8> {
    let mut trace = Vec::new();
    events.iter().for_each(|event| event.write(&mut trace));
    trace
}

/// A trace as its events; it must be nothing but whole events.
pub fn events(mut trace: &[u8]) -> Vec<Event> {
    let mut events = Vec::new();
    while !trace.is_empty() {
        let (event, length) = Event::read(trace).expect("a whole event");
        events.push(event);
        trace = &trace[length..];
    }
    events
}

/// CS#, WP# and HOLD# high.
pub const SPI_REST: u8 = spi::CS | spi::WP | spi::HOLD;

/// SCL and SDA high, WP low.
pub const I2C_REST: u8 = i2c::SCL | i2c::SDA;

/// A host on SPI, mode 0: SI is set up while SCK is low, a sample before the rise.
pub struct Spi {
    pub events: Vec<Event>,
    /// WP# and HOLD# as the host holds them.
    pub held: u8,
}

impl Spi {
    /// Power on, at rest.
    pub fn on() -> Spi {
        Spi {
            events: vec![Event::SpiPowerOn { sample: SPI_REST }],
            held: spi::WP | spi::HOLD,
        }
    }

    pub fn off(&mut self) {
        self.events.push(Event::PowerOff);
    }

    pub fn on_again(&mut self) {
        self.events.push(Event::SpiPowerOn {
            sample: spi::CS | self.held,
        });
    }

    pub fn sample(&mut self, levels: u8) {
        self.events.push(Event::Sample(levels | self.held));
    }

    /// One selection with these bytes on SI.
    pub fn select(&mut self, bytes: &[u8]) {
        self.sample(0);
        self.bits(bytes, 8 * bytes.len());
        self.sample(0);
        self.sample(spi::CS);
    }

    /// So many bits of the bytes, with CS# low before and after.
    pub fn bits(&mut self, bytes: &[u8], count: usize) {
        for at in 0..count {
            let high = bytes[at / 8] >> (7 - at % 8) & 1 == 1;
            let level = if high { spi::SI } else { 0 };
            self.sample(level);
            self.sample(level | spi::SCK);
        }
    }

    pub fn enable(&mut self) {
        self.select(&[0x06]);
    }

    /// WREN and WRSR with SRWD BP1 BP0 as a number of three bits.
    pub fn protect(&mut self, bits: u8) {
        self.enable();
        self.select(&[0x01, bits >> 2 << 7 | (bits & 3) << 2]);
    }

    /// WREN and WRITE; the head is opcode and address.
    pub fn store(&mut self, address: &[u8], data: &[u8]) {
        self.enable();
        self.select(&[&[0x02], address, data].concat());
    }

    /// READ of so many bytes.
    pub fn load(&mut self, address: &[u8], count: usize) {
        self.select(&[&[0x03], address, &vec![0; count]].concat());
    }

    pub fn trace(&self) -> Vec<u8> {
        bytes(&self.events)
    }
}

/// A host on I2C, which lets go of SDA wherever the part is to answer.
pub struct I2c {
    pub events: Vec<Event>,
    /// WP as the host holds it.
    pub held: u8,
    sda: u8,
    /// Between START and STOP, where SCL is low.
    open: bool,
}

impl I2c {
    /// Power on at rest, with a start address.
    pub fn on(start: u32) -> I2c {
        I2c {
            events: vec![Event::I2cPowerOn {
                sample: I2C_REST,
                start,
            }],
            held: 0,
            sda: i2c::SDA,
            open: false,
        }
    }

    pub fn off(&mut self) {
        self.events.push(Event::PowerOff);
    }

    pub fn on_again(&mut self, start: u32) {
        (self.sda, self.open) = (i2c::SDA, false);
        let sample = I2C_REST | self.held;
        self.events.push(Event::I2cPowerOn { sample, start });
    }

    fn sample(&mut self, scl: u8) {
        self.events.push(Event::Sample(scl | self.sda | self.held));
    }

    fn drive(&mut self, high: bool) {
        self.sda = if high { i2c::SDA } else { 0 };
    }

    /// START, from rest or within a transfer: SDA rises while SCL is low, and falls while it is high.
    pub fn start(&mut self) {
        if self.open {
            self.drive(true);
            self.sample(0);
            self.sample(i2c::SCL);
        }
        self.drive(false);
        self.sample(i2c::SCL);
        self.sample(0);
        self.open = true;
    }

    pub fn stop(&mut self) {
        self.drive(false);
        self.sample(0);
        self.sample(i2c::SCL);
        self.drive(true);
        self.sample(i2c::SCL);
        self.open = false;
    }

    /// One clock with SDA at this level; SDA moves while SCL is low.
    pub fn bit(&mut self, high: bool) {
        self.drive(high);
        self.sample(0);
        self.sample(i2c::SCL);
        self.sample(0);
    }

    /// A byte to the part, and a clock for its acknowledge.
    pub fn put(&mut self, byte: u8) {
        for place in (0..8).rev() {
            self.bit(byte >> place & 1 == 1);
        }
        self.bit(true);
    }

    /// A byte from the part; the host acknowledges it if it wants more.
    pub fn get(&mut self, more: bool) {
        for _ in 0..8 {
            self.bit(true);
        }
        self.bit(!more);
    }

    /// A write transfer with this device address word: two address bytes and data.
    pub fn store(&mut self, word: u8, address: u16, data: &[u8]) {
        self.address(word, address);
        data.iter().for_each(|byte| self.put(*byte));
        self.stop();
    }

    /// START, word and two address bytes.
    pub fn address(&mut self, word: u8, address: u16) {
        self.start();
        self.put(word);
        address
            .to_be_bytes()
            .iter()
            .for_each(|byte| self.put(*byte));
    }

    /// A random read: the address, START again, the read word, and so many bytes.
    pub fn load(&mut self, word: u8, address: u16, count: usize) {
        self.address(word, address);
        self.load_on(word, count);
    }

    /// A read that sends no address.
    pub fn load_on(&mut self, word: u8, count: usize) {
        self.start();
        self.put(word | 1);
        (1..=count).for_each(|at| self.get(at < count));
        self.stop();
    }

    pub fn trace(&self) -> Vec<u8> {
        bytes(&self.events)
    }
}
