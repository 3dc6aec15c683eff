//! Whose turn it is on an I2C bus, by the bits that went by since START.

use super::chip::Seen;
use sildrokk::trace::i2c;
use sildrokk::Part;

pub struct Turn {
    part: Part,
    pins: u32,
    place: Place,
    /// Rises since the byte began, and the bits of the first eight.
    rises: u32,
    byte: u32,
    /// The answer that the bit under way tells; none if it tells none, or if there is none.
    told: Option<u8>,
}

#[derive(Clone, Copy, PartialEq)]
enum Place {
    Rest,
    Word,
    /// The host sends to the part.
    Writing,
    /// The part sends.
    Reading,
    /// A transfer with somebody else, or one that the host ended.
    Other,
}

impl Turn {
    pub fn of(part: Part, pins: u32) -> Turn {
        let (place, rises, byte, told) = (Place::Rest, 0, 0, None);
        Turn {
            part,
            pins,
            place,
            rises,
            byte,
            told,
        }
    }

    /// SCL falls: the expected answer of the bit that ends, if one does.
    pub fn ended(&mut self) -> Option<u8> {
        self.told.take()
    }

    /// Power goes.
    pub fn cut(&mut self) {
        self.begin(Place::Rest);
    }

    /// A sample under power.
    pub fn sampled(&mut self, before: Option<Seen>, one: Seen) {
        let Some(before) = before.filter(|before| before.power) else {
            return self.cut();
        };
        let scl = [before, one].map(|seen| seen.levels & i2c::SCL != 0);
        match (scl, [before, one].map(line)) {
            ([true, true], [true, false]) => self.begin(Place::Word),
            ([true, true], [false, true]) => self.begin(Place::Rest),
            ([false, true], [_, level]) => self.risen(level),
            _ => {}
        }
    }

    /// START or STOP, or the end of a byte: what was under way is not.
    fn begin(&mut self, place: Place) {
        (self.place, self.rises, self.byte, self.told) = (place, 0, 0, None);
    }

    fn risen(&mut self, high: bool) {
        let told = match (high, self.is_the_parts()) {
            (true, _) => Some(2),
            (false, turn) => turn.then_some(0),
        };
        self.rises += 1;
        match self.rises {
            9 => self.begin(self.after_byte(high)),
            _ => self.byte = self.byte << 1 | u32::from(high),
        }
        self.told = told;
    }

    /// At the rise that comes now: the acknowledge of its word and of what it takes, and the bits that it
    /// sends.
    fn is_the_parts(&self) -> bool {
        match self.place {
            Place::Word => self.rises == 8 && self.own(),
            Place::Writing => self.rises == 8,
            Place::Reading => self.rises < 8,
            Place::Rest | Place::Other => false,
        }
    }

    fn after_byte(&self, high: bool) -> Place {
        match self.place {
            Place::Word if !self.own() => Place::Other,
            Place::Word if self.byte & 1 == 1 => Place::Reading,
            Place::Word => Place::Writing,
            Place::Reading if high => Place::Other,
            place => place,
        }
    }

    /// 1010, the pins, on MS85RC1MTY A16, and R/W.
    fn own(&self) -> bool {
        let pins = match self.part {
            Part::Mr44v064b => self.byte >> 1 & 7,
            _ => self.byte >> 2 & 3,
        };
        self.byte >> 4 == 0b1010 && pins == self.pins
    }
}

/// The wire is low where SDA or the part's pull is.
fn line(seen: Seen) -> bool {
    seen.levels & i2c::SDA != 0 && seen.answer
}
