//! Calls, each after others that bring a cache to where it is of interest.

use crate::call::Call;
use crate::cases::{counted, spread, Case, Group, Subject, COMMAND, LENGTHS, LONGEST, RECORDS};

/// How often a call is made that leaves the cache as it was.
const REPEATED: usize = 64;

/// Where the span of interest lies, with room below for other records.
const SPAN: usize = 256;

/// How many records a state can have in all.
const ALL_RECORDS: usize = 512;

/// The bytes of each record that a fetch joins.
const JOINED: usize = 16;

/// All cases that are calls.
pub fn all() -> Vec<Case> {
    let mut cases = vec![];
    cases.extend([0, 1, 8, 64, ALL_RECORDS].map(check));
    for records in RECORDS {
        cases.extend(LENGTHS.map(|length| replayed(length, records)));
    }
    for records in RECORDS {
        cases.extend(LENGTHS.map(|length| fresh(length, records)));
    }
    cases.extend(RECORDS.into_iter().flat_map(searches));
    cases.extend(RECORDS.map(overlap));
    cases.push(below());
    cases.extend(eight_loads());
    cases.extend(others());
    cases
}

fn begin(command: usize) -> Call {
    Call::Begin { command }
}

fn fetch(address: usize, length: usize) -> Call {
    Call::Fetch {
        command: COMMAND,
        address,
        length,
    }
}

/// A call that leaves the cache as it was.
fn repeated(group: Group, name: &str, size: usize, before: Vec<Call>, unit: Call) -> Case {
    let unit = vec![unit];
    let subject = Subject::Calls { before, unit };
    Case::new(group, name.to_string(), size, REPEATED, subject)
}

/// A call that a second one would not be like.
fn single(group: Group, name: &str, size: usize, before: Vec<Call>, unit: Call) -> Case {
    let unit = vec![unit];
    let subject = Subject::Calls { before, unit };
    Case::new(group, name.to_string(), size, 1, subject)
}

/// A begin, and so many records of a byte each with the span in their midst:
/// half of them below it and half behind it.
fn around(records: usize, length: usize) -> Vec<Call> {
    let below = (0..records / 2).map(|place| 2 * place);
    let behind = (records / 2..records).map(|place| SPAN + length + 1 + 2 * place);
    let addresses = below.chain(behind);
    let fetches = addresses.map(|address| fetch(address, 1));
    [begin(COMMAND)].into_iter().chain(fetches).collect()
}

/// What a span can have of a length, if the other records have a byte each.
fn fitting(length: usize, others: usize) -> usize {
    length.min(LONGEST - others)
}

/// A begin of a command and so many records.
fn filled(command: usize, records: usize) -> impl Iterator<Item = Call> {
    let fetches = (0..records).map(move |place| Call::Fetch {
        command,
        address: 2 * place,
        length: 1,
    });
    [begin(command)].into_iter().chain(fetches)
}

/// So many records in the state: in one command, or in all alike.
fn full(records: usize) -> Vec<Call> {
    if records == ALL_RECORDS {
        (0..8).flat_map(|command| filled(command, 64)).collect()
    } else {
        filled(COMMAND, records).collect()
    }
}

/// A fetch of no bytes does no more than check.
fn check(records: usize) -> Case {
    let name = format!(
        "fetch of no bytes, {} in the state",
        counted(records, "record")
    );
    repeated(
        Group::Check(records),
        &name,
        records,
        full(records),
        fetch(0, 0),
    )
}

/// A span that is a record is fetched again.
fn replayed(length: usize, records: usize) -> Case {
    let span = fetch(SPAN, fitting(length, records - 1));
    let mut before = around(records - 1, length);
    before.push(span);
    let name = name_of("replayed", length, records);
    repeated(Group::Replayed(records), &name, length, before, span)
}

/// A span becomes one more record.
fn fresh(length: usize, records: usize) -> Case {
    let span = fetch(SPAN, fitting(length, records - 1));
    let before = around(records - 1, length);
    let name = name_of("fresh", length, records);
    single(Group::Fresh(records), &name, length, before, span)
}

fn name_of(what: &str, length: usize, records: usize) -> String {
    format!(
        "{what}, {}, {}",
        counted(length, "byte"),
        counted(records, "record")
    )
}

/// One of so many records, each of a byte, is fetched again: the first, one in the
/// middle and the last, which are the same if there is but one.
fn searches(records: usize) -> Vec<Case> {
    let (middle, last) = ((records - 1) / 2, records - 1);
    let mut places = vec![("first", 0), ("middle", middle), ("last", last)];
    places.dedup_by_key(|(_, place)| *place);
    let all = counted(records, "record");
    let case = |(which, place): (&str, usize)| {
        let name = format!("replayed, 1 byte, {which} of {all}");
        let before = filled(COMMAND, records).collect();
        repeated(Group::Search, &name, records, before, fetch(2 * place, 1))
    };
    places.into_iter().map(case).collect()
}

/// A fetch that makes one record of several.
fn overlap(records: usize) -> Case {
    let name = format!("{LONGEST} bytes over {}", counted(records, "record"));
    let fetches = spread(records).map(|address| fetch(address, JOINED));
    let before = [begin(COMMAND)].into_iter().chain(fetches).collect();
    single(Group::Overlap, &name, records, before, fetch(0, LONGEST))
}

/// A fresh byte below all others that can be held, which move up by one.
fn below() -> Case {
    let name = format!("fresh, 1 byte below {} held ones", LONGEST - 1);
    let before = vec![begin(COMMAND), fetch(2, LONGEST - 1)];
    single(Group::Call, &name, 1, before, fetch(0, 1))
}

/// A descriptor that is fetched in eight parts, each of which touches the one
/// before: the fetches alone, and with begin and end.
fn eight_loads() -> [Case; 2] {
    const LOADS: usize = 8;
    const LOAD: usize = 8;
    const DESCRIPTOR: usize = 64;
    let loads: Vec<Call> = (0..LOADS)
        .map(|load| fetch(DESCRIPTOR + LOAD * load, LOAD))
        .collect();
    let end = Call::End { command: COMMAND };
    let whole = [&[begin(COMMAND)], &loads[..], &[end]].concat();
    let case = |name: &str, units, before, unit| {
        let subject = Subject::Calls { before, unit };
        Case::new(Group::Call, name.to_string(), LOADS, units, subject)
    };
    let name = "fresh, 64 bytes in 8 fetches of 8";
    let with_ends = format!("begin, {name}, end");
    [
        case(name, 1, vec![begin(COMMAND)], loads),
        case(&with_ends, REPEATED, vec![], whole),
    ]
}

/// Calls that are no fetches.
fn others() -> Vec<Case> {
    let mut cases = vec![single(Group::Call, "begin", 0, vec![], begin(COMMAND))];
    cases.extend(RECORDS.map(end));
    cases.extend(RECORDS.map(show));
    cases.extend(LENGTHS.map(written_over));
    cases.extend(LENGTHS.map(written));
    for length in LENGTHS {
        let name = format!("host write, {}", counted(length, "byte"));
        let write = Call::HostWrite {
            address: SPAN,
            length,
        };
        cases.push(repeated(Group::Call, &name, length, vec![], write));
    }
    cases
}

fn own_write(length: usize) -> Call {
    Call::OwnWrite {
        command: COMMAND,
        address: SPAN,
        length,
    }
}

/// An own write of what is a record already.
fn written_over(length: usize) -> Case {
    let write = own_write(fitting(length, 1));
    let mut before = around(1, length);
    before.push(write);
    let name = format!("own write, {} held", counted(length, "byte"));
    repeated(Group::Call, &name, length, before, write)
}

/// An own write that becomes one more record.
fn written(length: usize) -> Case {
    let write = own_write(fitting(length, 1));
    let name = format!("own write, {} new", counted(length, "byte"));
    single(Group::Call, &name, length, around(1, length), write)
}

fn end(records: usize) -> Case {
    let name = format!("end, {}", counted(records, "record"));
    let end = Call::End { command: COMMAND };
    single(Group::Call, &name, records, around(records, 1), end)
}

/// The last record.
fn show(records: usize) -> Case {
    let name = format!("show, {}", counted(records, "record"));
    let show = Call::Show {
        command: COMMAND,
        index: records - 1,
    };
    repeated(Group::Call, &name, records, around(records, 1), show)
}
