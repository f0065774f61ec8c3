//! Calls, and how they are made on any of the programs.

use std::hint::black_box;

use plain::walk::Transfer;

use crate::answer::Answer;
use crate::memory::Memory;
use crate::programs::Cache;

/// A call with its numbers.
#[derive(Clone, Copy, Debug)]
pub enum Call {
    Begin {
        command: usize,
    },
    Fetch {
        command: usize,
        address: usize,
        length: usize,
    },
    End {
        command: usize,
    },
    HostWrite {
        address: usize,
        length: usize,
    },
    /// A host write of one entry of a page list.
    HostEntry {
        address: usize,
        entry: u64,
    },
    OwnWrite {
        command: usize,
        address: usize,
        length: usize,
    },
    Show {
        command: usize,
        index: usize,
    },
    Walk {
        command: usize,
        transfer: Transfer,
    },
    /// No call of a cache, but one copy of so many bytes.
    Copy {
        length: usize,
    },
    /// Nothing at all.
    Idle,
}

/// How a call is made, and what becomes of its reply.
pub trait Sink {
    fn take<R: Into<Answer>>(&mut self, call: impl FnOnce() -> R);
}

/// The reply is there, and nobody reads it.
pub struct Unread;

impl Sink for Unread {
    fn take<R: Into<Answer>>(&mut self, call: impl FnOnce() -> R) {
        black_box(&call());
    }
}

/// The last reply is kept.
pub struct Last(pub Answer);

impl Sink for Last {
    fn take<R: Into<Answer>>(&mut self, call: impl FnOnce() -> R) {
        self.0 = call().into();
    }
}

/// Makes a call.
pub fn make(cache: &mut impl Cache, memory: &mut Memory, call: Call, sink: &mut impl Sink) {
    match call {
        Call::Begin { command } => sink.take(|| cache.begin(command)),
        Call::Fetch {
            command,
            address,
            length,
        } => sink.take(|| cache.fetch(memory, command, address, length)),
        Call::End { command } => sink.take(|| cache.end(command)),
        Call::HostWrite { address, length } => {
            let (window, bytes) = memory.write(address, length);
            sink.take(|| cache.host_write(window, address, bytes))
        }
        Call::HostEntry { address, entry } => {
            let (window, bytes) = (&mut memory.window, entry.to_le_bytes());
            sink.take(|| cache.host_write(window, address, &bytes))
        }
        Call::OwnWrite {
            command,
            address,
            length,
        } => {
            let (window, bytes) = memory.write(address, length);
            sink.take(|| cache.own_write(window, command, address, bytes))
        }
        Call::Show { command, index } => sink.take(|| cache.show(command, index)),
        Call::Walk { command, transfer } => make_walk(cache, memory, command, &transfer, sink),
        Call::Copy { length } => sink.take(|| memory.copy(length)),
        Call::Idle => {}
    }
}

/// What a program that has just started answers to calls that follow others.
pub fn answers<C: Cache>(before: &[Call], calls: &[Call]) -> Vec<Answer> {
    let (mut cache, mut memory) = (C::new(), Memory::new());
    let mut answer = |call: &Call| {
        let mut last = Last(Answer::Unknown);
        make(&mut cache, &mut memory, *call, &mut last);
        last.0
    };
    for call in before {
        answer(call);
    }
    calls.iter().map(answer).collect()
}

/// Makes a walk, which has more arguments than any other call and gets a stack frame
/// of its own for them, so that those of the others cost what they cost without it.
#[inline(never)]
fn make_walk(
    cache: &mut impl Cache,
    memory: &mut Memory,
    command: usize,
    transfer: &Transfer,
    sink: &mut impl Sink,
) {
    sink.take(|| cache.walk(memory, command, transfer));
}
