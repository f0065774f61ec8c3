//! Journals in pairs, one with a number of frames of interest and one without
//! them. The cost of such a frame is the difference, divided by their number.

use compare::journals::journal;
use sampling::layout::frame;

use crate::cases::{counted, spread, Case, Group, Subject, COMMAND, LENGTHS, LONGEST, RECORDS};
use crate::memory::WINDOW;

/// So many frames of interest has a journal, and so many where they are long
/// or have much around them.
const UNITS: usize = 64;
const FEW: usize = 7;

/// The bytes of each record that a fetch joins.
const JOINED: usize = 16;

/// A case that is being put together.
struct Pair {
    name: String,
    units: usize,
    whole: Vec<u8>,
    base: Vec<u8>,
    logged: bool,
}

impl Pair {
    /// A frame follows a beginning again and again.
    fn repeated(name: &str, before: &[u8], unit: &[u8]) -> Pair {
        Pair {
            name: name.to_string(),
            units: UNITS,
            whole: [before, &unit.repeat(UNITS)].concat(),
            base: before.to_vec(),
            logged: true,
        }
    }

    /// Each frame has its own begin and end, and what is put behind the begin.
    fn apart(name: &str, units: usize, before: &[u8], unit: &[u8]) -> Pair {
        let (begin, end) = (begin(), end());
        Pair {
            name: name.to_string(),
            units,
            whole: [&begin, before, unit, &end].concat().repeat(units),
            base: [&begin, before, &end].concat().repeat(units),
            logged: true,
        }
    }

    /// The same with no room for the log.
    fn silent(self) -> Pair {
        Pair {
            name: format!("{}, no room for the log", self.name),
            logged: false,
            ..self
        }
    }

    fn case(self) -> Case {
        let subject = Subject::Journals {
            whole: self.whole,
            base: self.base,
            logged: self.logged,
        };
        Case::new(Group::Frame, self.name, 0, self.units, subject)
    }
}

/// All cases that are journals.
pub fn all() -> Vec<Case> {
    let mut pairs = vec![];
    pairs.extend(LENGTHS.map(replayed));
    pairs.extend(LENGTHS.map(fresh));
    pairs.extend(RECORDS.map(overlap));
    pairs.push(mixed());
    pairs.extend(parts());
    pairs.into_iter().map(Pair::case).collect()
}

fn begin() -> Vec<u8> {
    frame(0, COMMAND as u64, 0, 0, &[])
}

fn fetch(address: usize, length: usize) -> Vec<u8> {
    frame(1, COMMAND as u64, address as u64, length as u64, &[])
}

fn end() -> Vec<u8> {
    frame(2, COMMAND as u64, 0, 0, &[])
}

/// A span that is held is fetched again.
fn replayed(length: usize) -> Pair {
    let span = fetch(0, length);
    let name = format!("replayed, {}", counted(length, "byte"));
    Pair::repeated(&name, &[begin(), span.clone()].concat(), &span)
}

/// The first fetch of a command.
fn fresh(length: usize) -> Pair {
    let name = format!("fresh, {}", counted(length, "byte"));
    Pair::apart(&name, UNITS, &[], &fetch(0, length))
}

/// A fetch of 4,096 bytes that joins records.
fn overlap(records: usize) -> Pair {
    let name = format!("{LONGEST} bytes over {}", counted(records, "record"));
    let before: Vec<u8> = spread(records)
        .flat_map(|address| fetch(address, JOINED))
        .collect();
    Pair::apart(&name, FEW, &before, &fetch(0, LONGEST))
}

/// A random journal with frames of every kind.
fn mixed() -> Pair {
    const SEED: u64 = 15;
    let journal = journal(SEED);
    assert_eq!(journal.profile, "mixed");
    Pair {
        name: "a frame of a mixed journal".to_string(),
        units: frames_of(&journal.bytes),
        whole: journal.bytes,
        base: vec![],
        logged: true,
    }
}

/// How many frames a journal has, an unreadable one at its end included.
fn frames_of(journal: &[u8]) -> usize {
    let mut count = 0;
    let mut rest = journal;
    while let Ok(frame) = plain::frames::read(rest) {
        rest = &rest[frame.taken..];
        count += 1;
    }
    count + usize::from(!rest.is_empty())
}

/// Frames that leave out some of the work each.
fn parts() -> Vec<Pair> {
    let part = Pair::repeated;
    vec![
        part(
            "fetch refused before the state is looked at",
            &[],
            &fetch(WINDOW, 1),
        ),
        part("fetch refused by the state", &[], &fetch(0, 1)),
        part("fetch of no bytes", &begin(), &fetch(0, 0)),
        part(
            "fetch of no bytes, all records in use",
            &all_full(),
            &fetch(0, 0),
        ),
        part("begin and end", &[], &[begin(), end()].concat()),
        replayed(LONGEST).silent(),
        fresh(LONGEST).silent(),
        host_writes(),
    ]
}

/// Writes of the host, of which a journal has few, since they are long.
fn host_writes() -> Pair {
    let write = frame(3, 0, 0, LONGEST as u64, &[7; LONGEST]);
    Pair {
        units: FEW,
        whole: write.repeat(FEW),
        ..Pair::repeated("host write, 4096 bytes", &[], &write)
    }
}

/// Eight commands with 64 records each.
fn all_full() -> Vec<u8> {
    (0..8)
        .flat_map(|command| {
            let records = (0..64).flat_map(move |k| frame(1, command, 2 * k, 1, &[]));
            frame(0, command, 0, 0, &[]).into_iter().chain(records)
        })
        .collect()
}
