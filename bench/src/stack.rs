//! How much stack the proved library's functions take: each is called on a
//! stack that was painted before, and what is no longer painted was taken.
//!
//! - [`painted`]: such a stack.

mod painted;

use std::hint::black_box;

use boundary::{ByteMap, WORDS};
use compare::journals::journal;

use crate::answer::Answer;
use crate::call::{make, Call, Sink, Unread};
use crate::cases::{Case, Group, Subject};
use crate::memory::{Desk, Memory};
use crate::programs::{Cache, OneCommand, Proved};
use crate::work::{replay_of, Column};
use painted::taken;

/// The bytes of stack that a function takes at most.
pub struct Depth {
    pub function: &'static str,
    pub bytes: usize,
}

/// How many random journals are run.
const JOURNALS: u64 = 32;

/// All functions.
pub fn depths(cases: &[Case]) -> Vec<Depth> {
    let depth = |function, bytes| Depth { function, bytes };
    let mut state = [0; WORDS];
    let mut depths = vec![depth("fresh", taken(&mut || boundary::fresh(&mut state)))];
    let calls = [
        "begin",
        "fetch",
        "end",
        "host write",
        "own write",
        "show",
        "walk",
    ];
    depths.extend(calls.map(|function| depth(function, of_call(cases, function))));
    depths.push(depth("frame read", of_reader()));
    depths.push(depth("frame write", of_writer()));
    depths.push(depth("journal replay", of_journals(cases)));
    let mut map = ByteMap::FRESH;
    depths.push(depth(
        "map fresh",
        taken(&mut || boundary::map_fresh(&mut map)),
    ));
    let calls = [
        ("begin", "map begin"),
        ("fetch", "map fetch"),
        ("end", "map end"),
        ("own write", "map own write"),
    ];
    depths.extend(calls.map(|(call, function)| depth(function, of_map_call(cases, call))));
    depths
}

/// A call is made on a painted stack, and what it takes of it is kept.
struct Taken(usize);

impl Sink for Taken {
    fn take<R: Into<Answer>>(&mut self, call: impl FnOnce() -> R) {
        let mut call = Some(call);
        self.0 = taken(&mut || {
            black_box(&call.take().map(|call| call()));
        });
    }
}

/// The name of the function that a call is made with.
fn function(call: Call) -> &'static str {
    match call {
        Call::Begin { .. } => "begin",
        Call::Fetch { .. } => "fetch",
        Call::End { .. } => "end",
        Call::HostWrite { .. } | Call::HostEntry { .. } => "host write",
        Call::OwnWrite { .. } => "own write",
        Call::Show { .. } => "show",
        Call::Walk { .. } => "walk",
        Call::Copy { .. } | Call::Idle => "none",
    }
}

/// The most that a function takes in all calls of the cases.
fn of_call(cases: &[Case], name: &str) -> usize {
    let depths = cases.iter().filter_map(|case| match &case.subject {
        Subject::Calls { before, unit } => of_list::<Proved>(before, unit, name),
        Subject::Journals { .. } => None,
    });
    depths.max().unwrap_or(0)
}

/// The same in all cases of the byte map.
fn of_map_call(cases: &[Case], name: &str) -> usize {
    let of_maps = cases.iter().filter(|case| case.group == Group::Map);
    let depths = of_maps.filter_map(|case| match &case.subject {
        Subject::Calls { before, unit } => of_list::<OneCommand<ByteMap>>(before, unit, name),
        Subject::Journals { .. } => None,
    });
    depths.max().unwrap_or(0)
}

/// The most that a function takes among calls that follow others, if it is
/// among them.
fn of_list<C: Cache>(before: &[Call], unit: &[Call], name: &str) -> Option<usize> {
    let (mut cache, mut memory) = (C::new(), Memory::new());
    for call in before {
        make(&mut cache, &mut memory, *call, &mut Unread);
    }
    let depths = unit.iter().filter_map(|call| {
        let mut bytes = Taken(0);
        make(&mut cache, &mut memory, *call, &mut bytes);
        (function(*call) == name).then_some(bytes.0)
    });
    depths.max()
}

/// Frames of every kind, with the longest data.
fn of_reader() -> usize {
    let frames = (0..8).map(|kind| {
        let mut frame = sampling::layout::frame(kind, 0, 0, 0, &[]);
        frame.extend([7; 4_096]);
        taken(&mut || {
            boundary::frame_read(&frame);
        })
    });
    frames.max().unwrap_or(0)
}

fn of_writer() -> usize {
    let mut output = vec![0; 8_192];
    let kinds = (0..8).map(|kind| {
        let data = &[7; 4_096][..if kind > 2 { 4_096 } else { 0 }];
        taken(&mut || {
            boundary::frame_write(&mut output, kind, 0, 0, data.len(), data);
        })
    });
    kinds.max().unwrap_or(0)
}

/// The journals of the cases, and random ones.
fn of_journals(cases: &[Case]) -> usize {
    let of_cases = cases.iter().filter_map(|case| match &case.subject {
        Subject::Journals { whole, .. } => Some(whole.clone()),
        Subject::Calls { .. } => None,
    });
    let random = (0..JOURNALS).map(|seed| journal(seed).bytes);
    let replay = replay_of(Column::Proved).expect("the proved library runs journals");
    let depths = of_cases.chain(random).map(|journal| {
        let mut desk = Desk::new(true);
        taken(&mut || {
            replay(&mut desk, &journal);
        })
    });
    depths.max().unwrap_or(0)
}
