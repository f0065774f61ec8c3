//! Programs side by side, each with its buffers.

use boundary::Words;

use crate::answer::Answer;
use crate::call::{make, Call, Last};
use crate::memory::{scratch_of, store_of, Memory};
use crate::programs::{Cache, Ordinary, Proved, Stateful};

/// What a scratch has that somebody else has used before.
const USED: u8 = 0xa5;

/// A program with its buffers.
pub struct Party<C> {
    pub cache: C,
    pub memory: Memory,
}

impl<C: Cache> Default for Party<C> {
    fn default() -> Party<C> {
        Party {
            cache: C::new(),
            memory: Memory::new(),
        }
    }
}

impl<C: Cache> Party<C> {
    pub fn make(&mut self, call: Call) -> Answer {
        let mut last = Last(Answer::Unknown);
        make(&mut self.cache, &mut self.memory, call, &mut last);
        last.0
    }
}

impl<C: Stateful> Party<C> {
    /// Makes a call with a scratch that is not zero.
    fn make_on_used(&mut self, call: Call) -> Answer {
        self.cache.scratch().fill(USED);
        self.make(call)
    }

    /// Whether another has the same state and buffers.
    fn is_like<D: Stateful>(&mut self, other: &mut Party<D>) -> bool {
        self.memory == other.memory
            && self.cache.words() == other.cache.words()
            && self.cache.store() == other.cache.store()
            && self.cache.scratch() == other.cache.scratch()
    }
}

/// The two programs that check everything.
#[derive(Default)]
pub struct Pair {
    pub proved: Party<Proved>,
    checked: Party<Ordinary<true>>,
}

impl Pair {
    /// Makes a call on both. Answers the same, or tells what is not.
    pub fn step(&mut self, call: Call) -> Result<Answer, String> {
        let answer = self.proved.make_on_used(call);
        let same =
            self.checked.make_on_used(call) == answer && self.proved.is_like(&mut self.checked);
        told(same, call, answer)
    }

    pub fn set_words(&mut self, words: &Words) {
        self.proved.cache.set_words(words);
        self.checked.cache.set_words(words);
    }

    pub fn set_lengths(&mut self, window: usize, store: usize, destination: usize) {
        let memory = Memory::sized(window, destination);
        (self.proved.memory, self.checked.memory) = (memory.clone(), memory);
        *self.proved.cache.store() = store_of(store);
        *self.checked.cache.store() = store_of(store);
    }

    /// Sets the lengths of what only walks get.
    pub fn set_places(&mut self, scratch: usize, addresses: usize, lengths: usize) {
        self.proved.memory.set_places(addresses, lengths);
        self.checked.memory.set_places(addresses, lengths);
        *self.proved.cache.scratch() = scratch_of(scratch);
        *self.checked.cache.scratch() = scratch_of(scratch);
    }
}

/// The same, and the one that does not check its state.
#[derive(Default)]
pub struct Three {
    pub pair: Pair,
    unchecked: Party<Ordinary<false>>,
}

impl Three {
    /// Makes a call on all. Answers the same, or tells what is not.
    pub fn step(&mut self, call: Call) -> Result<Answer, String> {
        let answer = self.pair.step(call)?;
        let same = self.unchecked.make_on_used(call) == answer
            && self.pair.proved.is_like(&mut self.unchecked);
        told(same, call, answer)
    }
}

/// An answer that all give, or what is not the same.
pub fn told(same: bool, call: Call, answer: Answer) -> Result<Answer, String> {
    if same {
        Ok(answer)
    } else {
        Err(format!("{call:?}, answered with {answer:?}"))
    }
}
