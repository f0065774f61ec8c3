//! Walks get the same answers, and leave the same spans, state and buffers. Without
//! a cache, a walk gives what it gives to a command that holds nothing else than the
//! window has.

use super::drawn::{any_calls, any_list, any_transfer, source};
use super::parties::{told, Pair, Party, Three};
use crate::answer::Answer;
use crate::call::Call;
use crate::cases::{Case, Group, Subject};
use crate::programs::{Proved, Straight};

/// So many random lists are made of so many calls or walks.
const LISTS: u64 = 300;
const CALLS: usize = 400;

/// Lengths of the scratch and of the two lists, some of them too short, and calls on
/// each.
const PLACES: [[usize; 3]; 7] = [
    [128, 17, 17],
    [127, 17, 17],
    [128, 16, 17],
    [128, 17, 16],
    [0, 0, 0],
    [129, 18, 17],
    [300, 17, 40],
];
const ON_EACH: usize = 600;

/// So many walks are also made without a cache.
const UNCACHED: usize = 20_000;

/// The command that walks beside those.
const COMMAND: usize = 5;

/// The call at which something is not the same.
pub fn difference(cases: &[Case]) -> Option<String> {
    let mut of_walks = cases.iter().filter(|case| case.group == Group::Walk);
    of_walks
        .find_map(of_case)
        .or_else(|| (0..LISTS).find_map(of_seed))
        .or_else(other_places)
        .or_else(without_a_cache)
}

/// The calls of a case, what is measured of them twice.
fn of_case(case: &Case) -> Option<String> {
    let Subject::Calls { before, unit } = &case.subject else {
        return None;
    };
    let mut beside = Beside::default();
    let mut list = before.iter().chain(unit).chain(unit);
    list.find_map(|call| beside.step(*call).err())
}

fn of_seed(seed: u64) -> Option<String> {
    let mut source = source(seed);
    let mut three = Three::default();
    let mut calls = (0..CALLS).flat_map(|_| any_calls(&mut source));
    calls.find_map(|call| three.step(call).err())
}

/// Calls with a scratch and lists of other lengths.
fn other_places() -> Option<String> {
    let mut source = source(0);
    let mut pair = Pair::default();
    PLACES
        .into_iter()
        .find_map(|[scratch, addresses, lengths]| {
            pair.set_places(scratch, addresses, lengths);
            let mut calls = (0..ON_EACH).flat_map(|_| any_calls(&mut source));
            calls.find_map(|call| pair.step(call).err())
        })
}

/// The proved library, and no cache.
#[derive(Default)]
struct Beside {
    proved: Party<Proved>,
    straight: Party<Straight>,
}

impl Beside {
    /// Makes a call on both. Walks must be refused alike, and leave what they may.
    fn step(&mut self, call: Call) -> Result<Answer, String> {
        let answer = self.proved.make(call);
        let refused = matches!(answer, Answer::Refused(_));
        let is_walk = matches!(call, Call::Walk { .. });
        let met = (refused && !is_walk) || answer.is_met_by(self.straight.make(call));
        if refused {
            self.straight.memory.clone_from(&self.proved.memory);
        }
        let same = met && self.proved.memory == self.straight.memory;
        told(same, call, answer)
    }
}

/// Random walks, each by a command that has just begun.
fn without_a_cache() -> Option<String> {
    let mut source = source(0);
    let mut beside = Beside::default();
    (0..UNCACHED).find_map(|_| {
        let transfer = any_transfer(&mut source.numbers);
        let mut calls = any_list(&mut source.numbers, transfer.prp2 as usize);
        let command = COMMAND;
        calls.extend([
            Call::Begin { command },
            Call::Walk { command, transfer },
            Call::End { command },
        ]);
        calls.into_iter().find_map(|call| beside.step(call).err())
    })
}
