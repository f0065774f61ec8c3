//! A stretch of frames that are all chosen in one way.

use sampling::generator::Generator;

use crate::draft::{Draft, LONGEST_CALL, WINDOW};

/// How the frames of a stretch are chosen.
pub struct Walk {
    pub name: &'static str,
    /// The fewest and the most frames of a journal, not counting begins that
    /// fetches need.
    pub frames: (u64, u64),
    /// Whether a few of the journals go on up to the longest input.
    pub fills: bool,
    /// So many commands take part.
    pub commands: u64,
    /// So many addresses are chosen from.
    pub region: u64,
    /// Chooses a span among that many addresses.
    pub span: fn(&mut Generator, u64) -> (u64, u64),
    /// One frame in so many is a begin.
    pub begins: u64,
    /// One frame in so many is an end.
    pub ends: u64,
    /// One frame in so many is a write.
    pub writes: u64,
}

impl Walk {
    /// A whole journal of this kind, with bytes in the window at its start.
    pub fn journal(&self, draft: &mut Draft) {
        let place = self.place(draft);
        place.paint(draft);
        let frames = if self.fills && draft.numbers.one_in(12) {
            u64::MAX
        } else {
            draft.numbers.between(self.frames.0, self.frames.1)
        };
        place.frames(draft, frames);
    }

    /// A stretch of so many frames, not counting begins that fetches need.
    pub fn stretch(&self, draft: &mut Draft, frames: u64) {
        self.place(draft).frames(draft, frames);
    }

    /// Chooses where in the window, and with which commands.
    fn place(&self, draft: &mut Draft) -> Place<'_> {
        Place {
            walk: self,
            base: draft.numbers.between(0, WINDOW - self.region),
            first_command: draft.numbers.below(8),
        }
    }
}

/// A walk at its place.
struct Place<'a> {
    walk: &'a Walk,
    base: u64,
    first_command: u64,
}

impl Place<'_> {
    /// Lets the host write bytes about where the spans will lie, so that one
    /// address can be told from another.
    fn paint(&self, draft: &mut Draft) {
        let length = (self.walk.region / 6).clamp(32, 1_024);
        for _ in 0..8 {
            let address = self.span(draft).0.min(WINDOW - length);
            let data = draft.numbers.bytes(length as usize);
            draft.host_write(address, &data);
        }
    }

    /// So many times a frame; less often if the journal is full before.
    fn frames(&self, draft: &mut Draft, times: u64) {
        for _ in 0..times {
            if !draft.takes_a_frame() {
                return;
            }
            self.frame(draft);
        }
    }

    /// One frame, and a begin before it where a fetch needs one.
    fn frame(&self, draft: &mut Draft) {
        let offset = draft.numbers.below(self.walk.commands);
        let command = (self.first_command + offset) % 8;
        if draft.numbers.one_in(self.walk.ends) {
            draft.end(command);
        } else if draft.numbers.one_in(self.walk.begins) {
            draft.begin(command);
        } else if draft.numbers.one_in(self.walk.writes) {
            self.write(draft, command);
        } else {
            if !draft.is_open(command) && !draft.numbers.one_in(8) {
                draft.begin(command);
            }
            let (address, length) = self.span_or_earlier(draft, command, 6);
            draft.fetch(command, address, length);
        }
    }

    /// A write of the host or of the command, half of them where the command
    /// has fetched or written before.
    fn write(&self, draft: &mut Draft, command: u64) {
        let (address, length) = self.span_or_earlier(draft, command, 2);
        let most = if draft.numbers.one_in(40) {
            LONGEST_CALL
        } else {
            40
        };
        let data = draft.numbers.bytes(length.min(most) as usize);
        if draft.numbers.one_in(2) {
            draft.host_write(address, &data);
        } else {
            draft.own_write(command, address, &data);
        }
    }

    /// Once in so many times a span that the command asked for before, else
    /// another one.
    fn span_or_earlier(&self, draft: &mut Draft, command: u64, times: u64) -> (u64, u64) {
        let repeats = draft.numbers.one_in(times);
        let earlier = draft.earlier_span(command).filter(|_| repeats);
        earlier.unwrap_or_else(|| self.span(draft))
    }

    /// A span of the walk. No address is above what a frame can say.
    fn span(&self, draft: &mut Draft) -> (u64, u64) {
        let (address, length) = (self.walk.span)(&mut draft.numbers, self.walk.region);
        ((self.base + address).min(65_535), length)
    }
}
