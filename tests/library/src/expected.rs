//! What a run must reply and leave, worked out by the reference.

use boundary::Replayed;
use reference::journal::{replay, Lent, Run};

use crate::lent::Buffers;

/// A run by the reference, and the buffers after it, of which the output is
/// still as it was given.
pub struct Expected {
    pub run: Run,
    pub buffers: Buffers,
}

impl Expected {
    /// Carries out a journal from the fresh book.
    pub fn of(journal: &[u8], mut buffers: Buffers) -> Expected {
        let lent = Lent {
            store: &mut buffers.store,
            window: &mut buffers.window,
            destination: &mut buffers.destination,
        };
        let run = replay(journal, lent);
        Expected { run, buffers }
    }

    /// The reply, and the buffers after the run, the log cut where the output
    /// ends.
    pub fn leaves(self) -> (Replayed, Buffers) {
        let mut buffers = self.buffers;
        let log = self.run.log.as_bytes();
        let written = buffers.output.len().min(log.len());
        buffers.output[..written].copy_from_slice(&log[..written]);
        let reply = Replayed {
            written,
            carried: self.run.carried,
            refused: self.run.refused,
            early: u32::from(self.run.early),
        };
        (reply, buffers)
    }
}
