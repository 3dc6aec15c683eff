//! What the ledger tells of a trace as it is fed: the memory and the bits, and from the wires alone
//! which event is the first with the flag.

use crate::Making;
use twin::Ledger;

/// The ledger of a trace's events so far, all of them accepted.
#[derive(Clone, Debug)]
pub struct Told {
    pub ledger: Ledger,
    /// Bytes of the events so far.
    bytes: u64,
    /// The offset of the first event with the flag.
    flag: Option<u64>,
}

impl Told {
    /// Before any event.
    pub fn begin(making: Making, memory: &[u8]) -> Told {
        let Making { part, pins, bits } = making;
        Told {
            ledger: Ledger::begin(part, pins, bits, memory),
            bytes: 0,
            flag: None,
        }
    }

    /// An accepted event and its answer.
    pub fn feed(&mut self, event: &[u8], answer: u8) {
        if self.ledger.feed(event, answer) && self.flag.is_none() {
            self.flag = Some(self.bytes);
        }
        self.bytes += event.len() as u64;
    }

    /// The flag offset of a run that accepts these events of the trace and then none with the flag.
    pub fn flag(&self, trace: &[u8]) -> u64 {
        self.flag.unwrap_or(trace.len() as u64)
    }
}
