//! The events of a run one at a time, on one image: together they give what the run gives in one call.

use crate::call::Call;
use crate::held::Held;
use crate::outcome::{result_of, Outcome, LEFT};
use crate::refused::place;
use sildrokk::calls::{self, RESULT};
use twin::trace::events;

impl Call {
    /// Whether single events, up to the quota, the trace's end or a refused one, give the run's number,
    /// count, offsets and answers, and leave its state and memory. For calls that 2 and 3 do not
    /// refuse.
    pub fn compare_singly(&self) -> Result<(), String> {
        let difference = self.proved().difference(&self.singly(), "answer");
        difference.map_or(Ok(()), |it| Err(format!("one at a time: {it}")))
    }

    fn singly(&self) -> Outcome {
        let mut held = Held::new(self.making);
        let mut answers = Vec::new();
        let (mut number, mut offset, mut flag) = (0, 0, None);
        for event in events(&self.trace).take(self.quota as usize) {
            let (refusal, answer, flagged) = single(&mut held, event);
            number = refusal;
            if number != 0 {
                break;
            }
            if flagged {
                flag.get_or_insert(offset);
            }
            answers.push(answer);
            offset += event.len() as u64;
        }
        let flag = flag.unwrap_or(self.trace.len() as u64);
        let numbers = [answers.len() as u64, offset + place(number) as u64, flag];
        Outcome {
            number,
            state: held.state,
            memory: held.memory,
            shown: self.answers.map(|room| {
                answers.resize(room, LEFT);
                answers
            }),
            result: result_of(self.result, &numbers),
        }
    }
}

/// One event: its number, answer and flag. The result has nothing else in it, and of a refused event
/// nothing driven and no flag.
fn single(held: &mut Held, event: &[u8]) -> (u8, u8, bool) {
    let mut result = [LEFT; RESULT];
    let number = calls::event(event, held.lent(&mut result));
    let [answer, flag, rest @ ..] = result;
    assert!(flag < 2 && rest == [0; RESULT - 2], "{result:x?}");
    assert!(number == 0 || (answer, flag) == (2, 0), "{result:x?}");
    (number, answer, flag == 1)
}
