//! Lists of calls of the byte map get the same answers and leave the same parts,
//! windows and destinations, on any maps and on windows and destinations of any
//! length.
//! The plain map without checks makes the calls on maps that hold together. From
//! the fresh map, the record engine with one command answers and delivers the
//! same in windows of at most 4,096 bytes.

use boundary::ByteMap;
use plain::byte_map::{ByteMap as Plain, ADDRESSES, WORDS};
use sampling::generator::Generator;
use sampling::spans;

use super::source::{Source, Spans};
use crate::answer::Answer;
use crate::call;
use crate::cases::{Case, Group, Subject};
use crate::memory::Memory;
use crate::programs::{Cache, Map, Proved};

/// So many random lists are made of so many calls.
const LISTS: u64 = 300;
const CALLS: usize = 200;

/// So many maps are set of which many do not hold together, with so many calls on
/// each.
const SET: u64 = 4_000;
const AFTER: usize = 8;

/// The command that the record engine serves.
const COMMAND: usize = 5;

/// The ways in which lists choose their spans.
const SPANS: [Spans; 7] = [
    (spans::any_size, ADDRESSES as u64),
    (spans::touching, 600),
    (spans::at_the_end, ADDRESSES as u64),
    (spans::overlapping, 2_000),
    (spans::medium, ADDRESSES as u64),
    (spans::every_other, 260),
    (spans::small, 1_500),
];

/// The call at which something is not the same.
pub fn difference(cases: &[Case]) -> Option<String> {
    let of_maps = cases.iter().filter(|case| case.group == Group::Map);
    of_maps
        .flat_map(of_case)
        .next()
        .or_else(|| (0..LISTS).find_map(from_fresh))
        .or_else(|| (0..SET).find_map(on_any_map))
}

/// A call of a byte map.
#[derive(Clone, Copy, Debug)]
enum Call {
    Begin,
    Fetch { address: usize, length: usize },
    OwnWrite { address: usize, length: usize },
    End,
}

/// All maps side by side, and the record engine.
struct Scene {
    proved: Party<ByteMap>,
    checked: Party<Plain<true>>,
    unchecked: Party<Plain<false>>,
    records: Proved,
    memory: Memory,
}

/// A map with its buffers.
struct Party<M> {
    map: M,
    memory: Memory,
}

impl<M: Map> Party<M> {
    fn fresh() -> Party<M> {
        Party {
            map: M::fresh(),
            memory: Memory::sized(ADDRESSES, 0),
        }
    }

    /// Its answer, without records looked at: a map has none.
    fn make(&mut self, call: Call) -> Answer {
        let answer: Answer = match call {
            Call::Begin => self.map.begin().into(),
            Call::End => self.map.end().into(),
            Call::Fetch { address, length } => {
                let (window, destination) = (&self.memory.window, &mut self.memory.destination);
                self.map.fetch(window, destination, address, length).into()
            }
            Call::OwnWrite { address, length } => {
                let (window, bytes) = self.memory.write(address, length);
                self.map.own_write(window, address, bytes).into()
            }
        };
        answer.without_search()
    }

    /// Whether another has the same parts and buffers.
    fn is_like<N: Map>(&self, other: &Party<N>) -> bool {
        self.map.parts() == other.map.parts() && self.memory == other.memory
    }
}

impl Scene {
    fn fresh() -> Scene {
        Scene {
            proved: Party::fresh(),
            checked: Party::fresh(),
            unchecked: Party::fresh(),
            records: Proved::new(),
            memory: Memory::sized(ADDRESSES, 0),
        }
    }

    /// Lends a window and a destination of these lengths to all. Every byte of the
    /// window is another with another number.
    fn lend(&mut self, window: usize, destination: usize, number: u8) {
        self.memory = Memory::sized(window, destination);
        self.memory
            .window
            .iter_mut()
            .for_each(|byte| *byte ^= number);
        for lent in [
            &mut self.proved.memory,
            &mut self.checked.memory,
            &mut self.unchecked.memory,
        ] {
            lent.clone_from(&self.memory);
        }
    }

    /// The same with any destination, most often with enough room, and any bytes.
    fn lend_any(&mut self, window: usize, numbers: &mut Generator) {
        let room = match numbers.below(20) {
            0 => numbers.below(40) as usize,
            _ => 4_200,
        };
        self.lend(window, room, numbers.below(256) as u8);
    }

    fn set_parts(&mut self, parts: &ByteMap) {
        self.proved.map.set_parts(parts);
        self.checked.map.set_parts(parts);
        self.unchecked.map.set_parts(parts);
    }

    /// Makes a call on the two maps that check everything, and on the third if
    /// these do not find the map broken. Answers the same, or tells what is not.
    fn step(&mut self, call: Call) -> Result<Answer, String> {
        let answer = self.proved.make(call);
        let mut same = self.checked.make(call) == answer && self.checked.is_like(&self.proved);
        if answer != Answer::Refused(20) {
            same =
                same && self.unchecked.make(call) == answer && self.unchecked.is_like(&self.proved);
        }
        if same {
            Ok(answer)
        } else {
            Err(told(call, answer))
        }
    }

    /// The same, and the record engine has to answer and to deliver so too.
    fn step_beside_records(&mut self, call: Call) -> Result<Answer, String> {
        let answer = self.step(call)?;
        let memory = &mut self.memory;
        let other: Answer = match call {
            Call::Begin => self.records.begin(COMMAND).into(),
            Call::End => self.records.end(COMMAND).into(),
            Call::Fetch { address, length } => {
                let reply = self.records.fetch(memory, COMMAND, address, length);
                reply.into()
            }
            Call::OwnWrite { address, length } => {
                let (window, bytes) = memory.write(address, length);
                let reply = self.records.own_write(window, COMMAND, address, bytes);
                reply.into()
            }
        };
        if other.without_search() == answer && *memory == self.proved.memory {
            Ok(answer)
        } else {
            Err(told(call, answer))
        }
    }
}

fn told(call: Call, answer: Answer) -> String {
    format!("{call:?} of the byte map, answered with {answer:?}")
}

/// The calls of a case, what is measured of them twice.
fn of_case(case: &Case) -> Option<String> {
    let Subject::Calls { before, unit } = &case.subject else {
        return None;
    };
    let mut scene = Scene::fresh();
    scene.lend(ADDRESSES, ADDRESSES, 0);
    let list = before.iter().chain(unit).chain(unit);
    list.map(|call| match *call {
        call::Call::Begin { .. } => Call::Begin,
        call::Call::End { .. } => Call::End,
        call::Call::Fetch {
            address, length, ..
        } => Call::Fetch { address, length },
        call::Call::OwnWrite {
            address, length, ..
        } => Call::OwnWrite { address, length },
        _ => unreachable!("{call:?} is no call of the byte map"),
    })
    .find_map(|call| scene.step_beside_records(call).err())
}

/// A list from the fresh map in windows that the record engine can be given too.
fn from_fresh(seed: u64) -> Option<String> {
    let mut source = Source::new(seed, &SPANS);
    let mut scene = Scene::fresh();
    (0..CALLS).find_map(|_| {
        let window = match source.numbers.below(10) {
            0 => source.numbers.below(ADDRESSES as u64 + 1) as usize,
            _ => ADDRESSES,
        };
        scene.lend_any(window, &mut source.numbers);
        scene.step_beside_records(any_call(&mut source)).err()
    })
}

/// A map of any parts, and calls on it with windows and destinations of any
/// length.
fn on_any_map(seed: u64) -> Option<String> {
    let mut source = Source::new(seed, &SPANS);
    let mut scene = Scene::fresh();
    scene.set_parts(&any_map(&mut source.numbers));
    (0..AFTER).find_map(|_| {
        let windows = [ADDRESSES, 0, 300, ADDRESSES + 1, 65_537];
        let place = source.numbers.below(16) as usize;
        let window = windows.get(place).unwrap_or(&ADDRESSES);
        scene.lend_any(*window, &mut source.numbers);
        scene.step(any_call(&mut source)).err()
    })
}

/// A map with about as many runs as there may be, closed one in eight times, and
/// most often with a value or a word changed.
fn any_map(numbers: &mut Generator) -> ByteMap {
    let mut map = ByteMap::FRESH;
    map.open = numbers.below(8);
    let (count, step) = (numbers.between(60, 66), numbers.between(2, 62));
    let length = numbers.between(1, step - 1);
    for run in 0..if map.open == 0 { 0 } else { count } {
        for address in run * step..run * step + length {
            map.words[address as usize / 64] |= 1 << (address % 64);
            map.values[address as usize] = numbers.below(256) as u8;
        }
    }
    match numbers.below(4) {
        0 => map.values[numbers.below(ADDRESSES as u64) as usize] = numbers.below(3) as u8,
        1 => map.words[numbers.below(WORDS as u64) as usize] |= 1 << numbers.below(64),
        2 => map.words[numbers.below(WORDS as u64) as usize] = 0,
        _ => {}
    }
    map
}

fn any_call(source: &mut Source) -> Call {
    let (address, length) = source.span();
    match source.numbers.below(40) {
        0 => Call::End,
        1..=3 => Call::Begin,
        4..=11 => Call::OwnWrite { address, length },
        _ => Call::Fetch { address, length },
    }
}
