//! What the programs answer, in one form for all.

use boundary::{Begun, Ended, Fetched, Shown, Walked, Written};
use plain::calls::Counts;
use plain::state::{length, start, Record};

/// What a call answers, in one form for all programs.
#[derive(Clone, Copy, Debug, PartialEq, Eq)]
pub enum Answer {
    Refused(u32),
    Numbers(usize, usize),
    /// Such numbers of a call that searches records, and how many of these it looked
    /// at.
    Searched(usize, usize, usize),
    /// Of two numbers the program knows the second.
    Second(usize),
    /// The program cannot tell.
    Unknown,
}

impl Answer {
    /// Whether a program that may know less says the same.
    pub fn is_met_by(self, other: Answer) -> bool {
        match (self, other) {
            (Answer::Numbers(_, two), Answer::Second(second)) => two == second,
            (Answer::Searched(..), Answer::Numbers(..)) => self.without_search() == other,
            (_, Answer::Unknown) => true,
            _ => self == other,
        }
    }

    /// The same without the number of records looked at.
    pub fn without_search(self) -> Answer {
        match self {
            Answer::Searched(one, two, _) => Answer::Numbers(one, two),
            _ => self,
        }
    }

    /// How many records were looked at.
    pub fn looked_at(self) -> usize {
        match self {
            Answer::Searched(_, _, looked_at) => looked_at,
            _ => 0,
        }
    }

    /// The answer of a C reply, if it is one to an accepted call.
    fn of_status(status: u32, accepted: Answer) -> Answer {
        match status {
            0 => accepted,
            refusal => Answer::Refused(refusal),
        }
    }
}

impl From<()> for Answer {
    fn from((): ()) -> Answer {
        Answer::Numbers(0, 0)
    }
}

impl From<usize> for Answer {
    fn from(count: usize) -> Answer {
        Answer::Numbers(count, 0)
    }
}

impl From<Counts> for Answer {
    fn from((one, two): Counts) -> Answer {
        Answer::Numbers(one, two)
    }
}

impl From<plain::calls::Fetched> for Answer {
    fn from(reply: plain::calls::Fetched) -> Answer {
        Answer::Searched(reply.fresh, reply.replayed, reply.looked_at)
    }
}

impl From<plain::calls::Walked> for Answer {
    fn from(reply: plain::calls::Walked) -> Answer {
        Answer::Searched(reply.spans, 0, reply.looked_at)
    }
}

impl From<Record> for Answer {
    fn from(record: Record) -> Answer {
        Answer::Numbers(start(record), length(record))
    }
}

impl<T: Into<Answer>> From<Result<T, u8>> for Answer {
    fn from(result: Result<T, u8>) -> Answer {
        match result {
            Ok(reply) => reply.into(),
            Err(refusal) => Answer::Refused(u32::from(refusal)),
        }
    }
}

impl From<Begun> for Answer {
    fn from(reply: Begun) -> Answer {
        Answer::of_status(reply.status, Answer::Numbers(0, 0))
    }
}

impl From<Ended> for Answer {
    fn from(reply: Ended) -> Answer {
        Answer::of_status(reply.status, Answer::Numbers(reply.records, reply.bytes))
    }
}

impl From<Fetched> for Answer {
    fn from(reply: Fetched) -> Answer {
        let accepted = Answer::Searched(reply.fresh, reply.replayed, reply.looked_at);
        Answer::of_status(reply.status, accepted)
    }
}

impl From<Written> for Answer {
    fn from(reply: Written) -> Answer {
        Answer::of_status(reply.status, Answer::Numbers(reply.bytes, reply.fresh))
    }
}

impl From<Walked> for Answer {
    fn from(reply: Walked) -> Answer {
        let accepted = Answer::Searched(reply.spans, 0, reply.looked_at);
        Answer::of_status(reply.status, accepted)
    }
}

impl From<Shown> for Answer {
    fn from(reply: Shown) -> Answer {
        let accepted = Answer::Numbers(reply.start.into(), reply.length.into());
        Answer::of_status(reply.status, accepted)
    }
}
