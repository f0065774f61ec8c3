//! Lists of calls get the same answers and leave the same state and buffers.
//! The programs without checks make those calls that the others accept, and
//! deliver the same bytes.

use boundary::{Words, WORDS};
use peers::bitmap::Bitmap;
use peers::ranges::Ranges;
use plain::state::{Record, STORE};
use sampling::generator::Generator;

use super::drawn::{any_call, any_calls, source};
use super::parties::{told, Pair, Party, Three};
use super::source::Source;
use crate::answer::Answer;
use crate::call::Call;
use crate::cases::{Case, Subject};
use crate::memory::WINDOW;
use crate::programs::Stateful;

/// So many random lists are made of so many calls.
const LISTS: u64 = 300;
const CALLS: usize = 400;

/// So many lists are followed by a state that somebody has changed, and by so
/// many calls on it.
const CHANGED: u64 = 3_000;
const BEFORE: usize = 60;
const AFTER: usize = 12;

/// Records of a command that just keep a rule or just break it: by their sum,
/// by where they end, by their order and what is between them.
const BRINKS: [&[Record]; 12] = [
    &[[0, 4_096]],
    &[[0, 4_097]],
    &[[0, 4_095], [5_000, 1]],
    &[[0, 4_096], [5_000, 1]],
    &[[65_535, 1]],
    &[[65_535, 2]],
    &[[7, 5], [13, 1]],
    &[[7, 5], [12, 1]],
    &[[0, 1], [1, 1]],
    &[[65_534, 1], [65_535, 1]],
    &[[7, 5], [11, 1]],
    &[[7, 5], [12, 0]],
];

/// Lengths of buffers, some of them wrong, and calls on each.
const WINDOWS: [usize; 4] = [0, 300, 65_536, 65_537];
const STORES: [usize; 3] = [0, 32_768, 32_769];
const DESTINATIONS: [usize; 3] = [0, 20, 4_096];
const ON_EACH: usize = 300;

/// The call at which something is not the same.
pub fn difference(cases: &[Case]) -> Option<String> {
    let of_case = |case: &Case| match &case.subject {
        Subject::Calls { before, unit } => {
            let list = before.iter().chain(unit).chain(unit);
            Scene::default().differ(list.copied())
        }
        Subject::Journals { .. } => None,
    };
    let of_seed = |seed| {
        let mut source = source(seed);
        Scene::default().differ((0..CALLS).map(|_| any_call(&mut source)))
    };
    cases
        .iter()
        .find_map(of_case)
        .or_else(|| (0..LISTS).find_map(of_seed))
        .or_else(|| (0..CHANGED).find_map(changed))
        .or_else(|| BRINKS.into_iter().find_map(at_brink))
        .or_else(|| [64, 65, 66].into_iter().find_map(with_mark))
        .or_else(other_lengths)
}

/// All programs side by side.
#[derive(Default)]
struct Scene {
    three: Three,
    ranges: Party<Ranges>,
    bitmap: Party<Bitmap>,
}

impl Scene {
    fn differ(&mut self, list: impl IntoIterator<Item = Call>) -> Option<String> {
        let mut list = list.into_iter();
        list.find_map(|call| self.step(call).err())
    }

    /// Makes a call on all. Answers the same, or tells what is not.
    fn step(&mut self, call: Call) -> Result<Answer, String> {
        let answer = self.three.step(call)?;
        let refused = matches!(answer, Answer::Refused(_));
        told(refused || self.peers_agree(call, answer), call, answer)
    }

    fn peers_agree(&mut self, call: Call, answer: Answer) -> bool {
        let memory = &self.three.pair.proved.memory;
        answer.is_met_by(self.ranges.make(call))
            && answer.is_met_by(self.bitmap.make(call))
            && *memory == self.ranges.memory
            && *memory == self.bitmap.memory
    }
}

/// Makes random calls on both, walks among them, and tells what is not the same.
fn step(pair: &mut Pair, source: &mut Source) -> Option<String> {
    let mut calls = any_calls(source).into_iter();
    calls.find_map(|call| pair.step(call).err())
}

/// A list, then a change of the state that may break it, and calls on that.
fn changed(seed: u64) -> Option<String> {
    let mut source = source(seed);
    let mut pair = Pair::default();
    let before = (0..BEFORE).find_map(|_| step(&mut pair, &mut source));
    let mut words = pair.proved.cache.words();
    change(&mut words, &mut source.numbers);
    pair.set_words(&words);
    before.or_else(|| (0..AFTER).find_map(|_| step(&mut pair, &mut source)))
}

/// Calls on a state that has these records in its first command.
fn at_brink(records: &[Record]) -> Option<String> {
    let mut words = [0; WORDS];
    words[0] = records.len() as u16 + 1;
    words[1..][..2 * records.len()].copy_from_slice(records.as_flattened());
    on_words(&words)
}

/// Calls on a state whose first command has a mark for about as many records as
/// there can be, and 64 of them.
fn with_mark(mark: u16) -> Option<String> {
    let mut words = [0; WORDS];
    words[0] = mark;
    for (place, record) in words[1..129].chunks_exact_mut(2).enumerate() {
        record.copy_from_slice(&[2 * place as u16, 1]);
    }
    on_words(&words)
}

fn on_words(words: &Words) -> Option<String> {
    let mut source = source(0);
    let mut pair = Pair::default();
    pair.set_words(words);
    (0..AFTER).find_map(|_| step(&mut pair, &mut source))
}

/// Lists on buffers of other lengths, in a state that calls of the usual
/// lengths have left.
fn other_lengths() -> Option<String> {
    let mut source = source(0);
    let mut pair = Pair::default();
    let mut step = |pair: &mut Pair| step(pair, &mut source);
    for window in WINDOWS {
        for store in STORES {
            for destination in DESTINATIONS {
                pair.set_lengths(WINDOW, STORE, WINDOW);
                let before = (0..BEFORE).find_map(|_| step(&mut pair));
                pair.set_lengths(window, store, destination);
                let after = || (0..ON_EACH).find_map(|_| step(&mut pair));
                if let Some(difference) = before.or_else(after) {
                    return Some(difference);
                }
            }
        }
    }
    None
}

/// Changes one word or two, most of them where records are.
fn change(words: &mut Words, numbers: &mut Generator) {
    for _ in 0..numbers.between(1, 2) {
        let place = match numbers.below(3) {
            0 => numbers.below(WORDS as u64),
            1 => 129 * numbers.below(2) + numbers.below(12),
            _ => 129 * numbers.below(8),
        };
        let word = &mut words[place as usize];
        *word = match numbers.below(4) {
            0 => numbers.below(65_536) as u16,
            1 => numbers.below(67) as u16,
            2 => word.wrapping_add(1),
            _ => word.wrapping_sub(1),
        };
    }
}
