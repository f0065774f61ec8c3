//! The device: its calls in the proved library, on a window that the host can
//! write meanwhile.

use boundary::{RawWindow, Words, WORDS};

use crate::lists::{Spans, LIST, PAGE_LIST, PRP1, SPANS, TRANSFER};
use crate::prey::Prey;

/// The command that works on the lists.
pub const COMMAND: usize = 3;

/// The state and the buffers of the device, which the host cannot reach, and
/// the window, which it can.
pub struct Device {
    state: Words,
    store: Vec<u8>,
    destination: Vec<u8>,
    scratch: Vec<u8>,
    window: RawWindow,
}

impl Device {
    /// A device in the fresh state. The window must be memory of the process
    /// that is never freed.
    pub fn new(window: RawWindow) -> Device {
        Device {
            state: [0; WORDS],
            store: vec![0; 32_768],
            destination: vec![0; 4_096],
            scratch: vec![0; 128],
            window,
        }
    }

    pub fn begin(&mut self, command: usize) {
        let reply = boundary::begin(&mut self.state, &mut self.store, command);
        assert_eq!(reply.status, 0, "begin {command}");
    }

    pub fn end(&mut self, command: usize) {
        let reply = boundary::end(&mut self.state, &mut self.store, command);
        assert_eq!(reply.status, 0, "end {command}");
    }

    /// Fetches so many bytes from the retire list's count on, and gives the
    /// count.
    pub fn fetch(&mut self, command: usize, length: usize) -> u8 {
        // SAFETY: the window is memory of the process that is never freed, and
        // nothing of the device lies in it. It may be written meanwhile, which
        // is what is tried here.
        let reply = unsafe {
            boundary::fetch_in(
                &mut self.state,
                &mut self.store,
                self.window,
                &mut self.destination,
                command,
                LIST,
                length,
            )
        };
        assert_eq!(reply.status, 0, "fetch {command} {LIST}+{length}");
        self.destination[0]
    }

    /// Walks the page list.
    pub fn walk(&mut self, command: usize) -> Spans {
        let mut spans = Spans::NONE;
        // SAFETY: as above.
        let reply = unsafe {
            boundary::walk_in(
                &mut self.state,
                &mut self.store,
                self.window,
                &mut self.scratch,
                &mut spans.addresses,
                &mut spans.lengths,
                command,
                PRP1,
                PAGE_LIST as u64,
                TRANSFER,
            )
        };
        assert_eq!((reply.status, reply.spans), (0, SPANS), "walk {command}");
        spans
    }

    /// One command checks and then uses. The answer is what was checked and what
    /// is used.
    pub fn one_command<P: Prey>(&mut self) -> [P::Look; 2] {
        self.begin(COMMAND);
        let checked = P::check(self);
        let used = P::take(self);
        self.end(COMMAND);
        [checked, used]
    }

    /// The same with an end and a begin in between, after which the cache owes
    /// nothing.
    pub fn two_commands<P: Prey>(&mut self) -> [P::Look; 2] {
        let checked = self.check_only::<P>();
        self.begin(COMMAND);
        let used = P::take(self);
        self.end(COMMAND);
        [checked, used]
    }

    /// The check alone.
    pub fn check_only<P: Prey>(&mut self) -> P::Look {
        self.begin(COMMAND);
        let checked = P::check(self);
        self.end(COMMAND);
        checked
    }
}
