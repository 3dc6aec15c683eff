//! Calls with any bytes lent as the state. The twin's `decode` says whether they are an image.

use crate::ask::Ask;
use sildrokk::calls::RESULT;
use twin::image::{decode, encode};
use twin::text::first_memory;
use twin::{Model, Part, PARTS};

/// A memory of each part on either side. Both change in the same way, so they are compared in whole
/// only now and then.
pub struct Memories {
    ours: Vec<Vec<u8>>,
    theirs: Vec<Vec<u8>>,
}

impl Memories {
    pub fn first() -> Memories {
        let all: Vec<Vec<u8>> = PARTS.iter().map(|part| first_memory(part.size)).collect();
        Memories {
            ours: all.clone(),
            theirs: all,
        }
    }

    pub fn compare(&self) -> Result<(), String> {
        right(self.ours == self.theirs, || String::from("memory differs"))
    }
}

/// Lengths of a result, of which one is right.
const RESULTS: [usize; 4] = [RESULT, 31, 33, 0];

/// Calls on an image, or on a buffer that is none; these have those lengths of a result in turn, from
/// one of them on, and a memory of the part.
pub fn each(
    state: &[u8],
    part: &Part,
    asks: &[Ask],
    from: usize,
    memories: &mut Memories,
) -> Result<(), String> {
    let about = |ask: &Ask, difference| format!("{state:x?} {ask:x?}: {difference}");
    let Some(model) = decode(state) else {
        let memory = &mut memories.ours[part.number as usize];
        let turns = RESULTS.iter().cycle().skip(from);
        return asks.iter().zip(turns).try_for_each(|(ask, &result)| {
            refused(state, ask, result, memory).map_err(|it| about(ask, it))
        });
    };
    for ask in asks {
        taken(state, &model, ask, memories).map_err(|it| about(ask, it))?;
    }
    let memory = &mut memories.ours[model.part().number as usize];
    written_again(state, memory)
}

/// A buffer that is no image, or a result of another length: refused with 2, and the state is left. A
/// result of 32 bytes is written all the same, and any other is left.
pub fn refused(state: &[u8], ask: &Ask, result: usize, memory: &mut [u8]) -> Result<(), String> {
    let mut left = state.to_vec();
    let gave = ask.call(&mut left, memory, result);
    let as_refused = gave == ask.refused(2, result);
    right(as_refused && left == state, || {
        format!("result {result}: {gave:x?}, leaves {left:x?}")
    })
}

/// An image: the call gives what the twin gives, and leaves the image of the twin's model.
fn taken(state: &[u8], model: &Model, ask: &Ask, memories: &mut Memories) -> Result<(), String> {
    let (mut left, mut next) = (state.to_vec(), model.clone());
    let place = model.part().number as usize;
    let gave = ask.call(&mut left, &mut memories.ours[place], RESULT);
    let theirs = ask.twin(&mut next, &mut memories.theirs[place]);
    let image = encode(&next);
    right(gave == theirs && left == image, || {
        format!("{gave:x?} and {left:x?}, and not {theirs:x?} and {image:x?}")
    })
}

/// A run of no events: the build reads the image and writes it again, byte for byte.
fn written_again(state: &[u8], memory: &mut [u8]) -> Result<(), String> {
    let mut left = state.to_vec();
    let run = Ask::Run {
        trace: Vec::new(),
        quota: 0,
    };
    let number = run.call(&mut left, memory, RESULT).number;
    right(number == 0 && left == state, || {
        format!("{state:x?}: number {number}, written again {left:x?}")
    })
}

fn right(right: bool, difference: impl FnOnce() -> String) -> Result<(), String> {
    if right {
        Ok(())
    } else {
        Err(difference())
    }
}
