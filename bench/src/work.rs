//! Something to be measured, by the column of the tables that it belongs to.

use boundary::ByteMap;
use peers::bitmap::Bitmap;
use peers::ranges::Ranges;
use plain::byte_map::ByteMap as Plain;
use plain::journal::{replay, Run};

use crate::call::{make, Call, Unread};
use crate::cases::{Case, Group, Subject};
use crate::memory::{Desk, Memory};
use crate::programs::{Cache, Map, Nothing, OneCommand, Ordinary, Proved, Straight};

/// What is measured.
#[derive(Clone, Copy, Debug, PartialEq, Eq)]
pub enum Column {
    Proved,
    /// The plain program that checks its state at each call.
    Checked,
    /// The plain program that does not.
    Unchecked,
    Ranges,
    Bitmap,
    /// As many bytes as the calls move, copied at once.
    Copy,
    /// The proved byte map.
    Map,
    /// The plain byte map that checks its parts at each call.
    CheckedMap,
    /// The plain byte map that does not.
    UncheckedMap,
    /// No cache.
    Straight,
}

pub const COLUMNS: [Column; 10] = [
    Column::Proved,
    Column::Checked,
    Column::Unchecked,
    Column::Ranges,
    Column::Bitmap,
    Column::Copy,
    Column::Map,
    Column::CheckedMap,
    Column::UncheckedMap,
    Column::Straight,
];

/// A value for each column, if the column has one.
pub type ByColumn<T> = [Option<T>; COLUMNS.len()];

/// It can be run again and again; what has to be done before each run is not
/// measured.
pub trait Work {
    fn prepare(&mut self);
    fn run(&mut self);
}

/// A case as a program does it: all of it, and what is to be taken off because
/// it stands around what is of interest. Nothing, if the program cannot.
pub fn works(case: &Case, column: Column) -> Option<[Box<dyn Work>; 2]> {
    match (&case.subject, column) {
        (_, Column::Copy) => {
            let length = Some(case.moved / case.units).filter(|length| *length > 0)?;
            let copies = |call| calls::<Nothing>(&[], &vec![call; case.units]);
            Some([copies(Call::Copy { length }), copies(Call::Idle)])
        }
        (
            Subject::Journals {
                whole,
                base,
                logged,
            },
            _,
        ) => {
            let of = |journal: &Vec<u8>| journals(column, journal, *logged);
            Some([of(whole)?, of(base)?])
        }
        (Subject::Calls { before, unit }, _) => {
            let unit = unit.repeat(case.units);
            let is_of_map = case.group == Group::Map;
            let whole = match column {
                Column::Map if is_of_map => map_calls::<ByteMap>(before, &unit),
                Column::CheckedMap if is_of_map => map_calls::<Plain<true>>(before, &unit),
                Column::UncheckedMap if is_of_map => map_calls::<Plain<false>>(before, &unit),
                Column::Map | Column::CheckedMap | Column::UncheckedMap => return None,
                Column::Straight if case.group == Group::Walk => calls::<Straight>(before, &unit),
                Column::Straight => return None,
                Column::Proved => calls::<Proved>(before, &unit),
                Column::Checked => calls::<Ordinary<true>>(before, &unit),
                Column::Unchecked => calls::<Ordinary<false>>(before, &unit),
                Column::Ranges => calls::<Ranges>(before, &unit),
                Column::Bitmap if matches!(unit[0], Call::Show { .. }) => return None,
                _ => calls::<Bitmap>(before, &unit),
            };
            Some([whole, calls::<Nothing>(before, &unit)])
        }
    }
}

/// The calls of a byte map.
fn map_calls<M: Map + 'static>(before: &[Call], measured: &[Call]) -> Box<dyn Work> {
    calls::<OneCommand<M>>(before, measured)
}

/// Calls that follow others which are not measured.
struct Calls<C> {
    cache: C,
    memory: Memory,
    before: Vec<Call>,
    measured: Vec<Call>,
}

fn calls<C: Cache + 'static>(before: &[Call], measured: &[Call]) -> Box<dyn Work> {
    Box::new(Calls {
        cache: C::new(),
        memory: Memory::new(),
        before: before.to_vec(),
        measured: measured.to_vec(),
    })
}

impl<C: Cache> Work for Calls<C> {
    fn prepare(&mut self) {
        self.cache.reset();
        for call in &self.before {
            make(&mut self.cache, &mut self.memory, *call, &mut Unread);
        }
    }

    fn run(&mut self) {
        for call in &self.measured {
            make(&mut self.cache, &mut self.memory, *call, &mut Unread);
        }
    }
}

/// A way to run a journal.
pub type Replay = fn(&mut Desk, &[u8]) -> Run;

/// How a column runs journals, if it can.
pub fn replay_of(column: Column) -> Option<Replay> {
    match column {
        Column::Proved => Some(replay_proved),
        Column::Checked => Some(replay_plain::<true>),
        Column::Unchecked => Some(replay_plain::<false>),
        _ => None,
    }
}

fn replay_proved(desk: &mut Desk, journal: &[u8]) -> Run {
    let [store, window, destination, output] = desk.lend();
    let reply = boundary::journal_replay(journal, store, window, destination, output);
    Run {
        written: reply.written,
        carried: reply.carried,
        refused: reply.refused,
        early: reply.early != 0,
    }
}

fn replay_plain<const CHECKED: bool>(desk: &mut Desk, journal: &[u8]) -> Run {
    let [store, window, destination, output] = desk.lend();
    replay::<CHECKED>(journal, store, window, destination, output)
}

/// A journal and its buffers.
struct Journal {
    desk: Desk,
    bytes: Vec<u8>,
    replay: Replay,
}

fn journals(column: Column, journal: &[u8], logged: bool) -> Option<Box<dyn Work>> {
    Some(Box::new(Journal {
        desk: Desk::new(logged),
        bytes: journal.to_vec(),
        replay: replay_of(column)?,
    }))
}

impl Work for Journal {
    fn prepare(&mut self) {}

    fn run(&mut self) {
        (self.replay)(&mut self.desk, &self.bytes);
    }
}
