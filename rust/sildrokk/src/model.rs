//! A model: the image of its state, and the calls on it.

use crate::calls::{self, Lent, RESULT, STATE};
use crate::{Answer, Part, Refusal};

/// One chip, but for its memory, which is lent at each call and must be as long as the part's. It is 32
/// bytes, the image of its state: a copy of it and of the memory is a chip of its own.
#[derive(Clone, Debug, PartialEq, Eq, Hash)]
pub struct Model {
    image: [u8; STATE],
}

/// What an accepted event gave.
#[derive(Clone, Copy, Debug, PartialEq, Eq, Hash)]
pub struct Answered {
    pub answer: Answer,
    /// The event moved WP# or WP where it is to be held still.
    pub warning: bool,
}

/// How a run ended.
#[derive(Clone, Copy, Debug, PartialEq, Eq, Hash)]
pub struct Ran {
    /// Why the event after the last accepted one was refused, if one was.
    pub refusal: Option<Refusal>,
    /// How many events were accepted.
    pub count: u64,
    /// Where the bad field begins (a sample, start address or expected answer out of its range); else
    /// how many bytes the accepted events have.
    pub offset: u64,
    /// Where the kind byte of the first accepted event with the warning flag stands.
    pub warning: Option<u64>,
}

/// Which bytes of a selection's output the part drove: so many from `first` on. The others are FFh.
#[derive(Clone, Copy, Debug, PartialEq, Eq, Hash)]
pub struct Driven {
    pub first: u64,
    pub count: u64,
}

impl Model {
    /// A part just made, without power.
    pub fn new(part: Part, pins: u32, bits: u32) -> Result<Model, Refusal> {
        match calls::made(part.number(), pins, bits) {
            Ok(image) => Ok(Model { image }),
            Err(number) => match Refusal::returned(number) {
                Err(refusal) => Err(refusal),
                Ok(()) => unreachable!("a making that is not refused gives a state"),
            },
        }
    }

    /// A model that was kept as its image. Bytes that are no image are taken here, and refused by every
    /// call with [`Refusal::State`].
    pub fn from_image(image: [u8; STATE]) -> Model {
        Model { image }
    }

    /// The image, which docs/IMAGE.md describes byte by byte.
    pub fn image(&self) -> &[u8; STATE] {
        &self.image
    }

    /// Which part it is; none if its image has no part's number.
    pub fn part(&self) -> Option<Part> {
        Part::of_number(self.image[0].into())
    }

    /// How its address pins are set.
    pub fn pins(&self) -> u32 {
        self.image[1].into()
    }

    /// SRWD, BP1 and BP0 of the status register as a number of three bits. Without power these are the
    /// saved bits, of which a part can be made again.
    pub fn bits(&self) -> u32 {
        let status = u32::from(self.image[2]);
        status >> 7 << 2 | status >> 2 & 3
    }

    /// Whether it has power.
    pub fn powered(&self) -> bool {
        self.image[3] != 0
    }

    /// The event at the front of the bytes; what stands behind it is not looked at.
    pub fn event(&mut self, event: &[u8], memory: &mut [u8]) -> Result<Answered, Refusal> {
        let (number, result) = self.called(memory, |lent| calls::event(event, lent));
        Refusal::returned(number)?;
        Ok(Answered {
            answer: Answer::of_number(result[0]).expect("an answer is 0, 1 or 2"),
            warning: result[1] != 0,
        })
    }

    /// At most so many events from the front of a trace, up to its end or to one that is refused.
    pub fn run(&mut self, trace: &[u8], quota: u64, memory: &mut [u8]) -> Ran {
        let (number, result) = self.called(memory, |lent| calls::run(trace, quota, lent));
        ran(number, &result, trace.len())
    }

    /// The same run, which also writes the number of each accepted event's answer to `answers`, while
    /// there is room.
    pub fn replay(
        &mut self,
        trace: &[u8],
        quota: u64,
        memory: &mut [u8],
        answers: &mut [u8],
    ) -> Ran {
        let call = |lent: Lent| calls::replay(trace, quota, answers.into(), lent);
        let (number, result) = self.called(memory, call);
        ran(number, &result, trace.len())
    }

    /// One selection of an SPI part as bytes, with WP# high if `wp` is true. `output`, as long as the
    /// input, gets what SO showed while each byte went in.
    pub fn select(
        &mut self,
        wp: bool,
        input: &[u8],
        output: &mut [u8],
        memory: &mut [u8],
    ) -> Result<Driven, Refusal> {
        let call = |lent: Lent| calls::select(wp.into(), input, output.into(), lent);
        let (number, result) = self.called(memory, call);
        Refusal::returned(number)?;
        Ok(Driven {
            first: number_at(&result, 0),
            count: number_at(&result, 1),
        })
    }

    /// A call on this state: its number and its result.
    fn called(&mut self, memory: &mut [u8], call: impl FnOnce(Lent) -> u8) -> (u8, [u8; RESULT]) {
        let mut result = [0; RESULT];
        let number = call(Lent {
            state: &mut self.image,
            memory,
            result: result.as_mut_slice().into(),
        });
        (number, result)
    }
}

fn ran(number: u8, result: &[u8; RESULT], length: usize) -> Ran {
    let warning = number_at(result, 2);
    Ran {
        refusal: Refusal::returned(number).err(),
        count: number_at(result, 0),
        offset: number_at(result, 1),
        warning: (warning != length as u64).then_some(warning),
    }
}

/// The number of eight bytes in this place of a result, high byte first.
fn number_at(result: &[u8; RESULT], place: usize) -> u64 {
    let bytes = result[8 * place..][..8].try_into();
    u64::from_be_bytes(bytes.expect("eight bytes"))
}
