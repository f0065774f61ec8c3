//! Calls that the byte map can make too: all addresses are below 4,096.

use crate::call::Call;
use crate::cases::{counted, Case, Group, Subject, COMMAND, LONGEST};

/// How often a call is made that leaves the map as it was.
const REPEATED: usize = 64;

/// The most runs.
const RUNS: usize = 64;

/// A short span and the longest, each with its address.
const SPANS: [(usize, usize); 2] = [(256, 64), (0, LONGEST)];

const BEGIN: Call = Call::Begin { command: COMMAND };
const END: Call = Call::End { command: COMMAND };

/// All cases of the byte map.
pub fn all() -> Vec<Case> {
    let mut cases = vec![];
    cases.extend([0, 1, RUNS].map(check));
    cases.extend(SPANS.map(replayed));
    cases.extend(SPANS.map(fresh));
    cases.extend(SPANS.map(written_over));
    cases.extend(SPANS.map(written));
    cases.push(eight_loads());
    cases.push(case("begin", 1, vec![], vec![BEGIN]));
    cases.extend([1, RUNS].map(end));
    cases
}

fn case(name: &str, units: usize, before: Vec<Call>, unit: Vec<Call>) -> Case {
    let subject = Subject::Calls { before, unit };
    Case::new(Group::Map, name.to_string(), 0, units, subject)
}

fn fetch(address: usize, length: usize) -> Call {
    Call::Fetch {
        command: COMMAND,
        address,
        length,
    }
}

/// A begin and so many runs of a byte each.
fn filled(runs: usize) -> Vec<Call> {
    let fetches = (0..runs).map(|place| fetch(2 * place, 1));
    [BEGIN].into_iter().chain(fetches).collect()
}

/// A fetch of no bytes does no more than check.
fn check(runs: usize) -> Case {
    let name = format!("fetch of no bytes, {}", counted(runs, "run"));
    case(&name, REPEATED, filled(runs), vec![fetch(0, 0)])
}

/// All that is held is fetched again.
fn replayed((address, length): (usize, usize)) -> Case {
    let span = fetch(address, length);
    let name = format!("replayed, {}", counted(length, "byte"));
    case(&name, REPEATED, vec![BEGIN, span], vec![span])
}

/// The first fetch behind a begin.
fn fresh((address, length): (usize, usize)) -> Case {
    let name = format!("fresh, {}", counted(length, "byte"));
    case(&name, 1, vec![BEGIN], vec![fetch(address, length)])
}

fn own_write((address, length): (usize, usize)) -> Call {
    Call::OwnWrite {
        command: COMMAND,
        address,
        length,
    }
}

/// All that is held is written over.
fn written_over(span: (usize, usize)) -> Case {
    let write = own_write(span);
    let name = format!("own write, {} held", counted(span.1, "byte"));
    case(&name, REPEATED, vec![BEGIN, write], vec![write])
}

/// The first own write behind a begin.
fn written(span: (usize, usize)) -> Case {
    let name = format!("own write, {} new", counted(span.1, "byte"));
    case(&name, 1, vec![BEGIN], vec![own_write(span)])
}

/// A descriptor in eight parts, each of which touches the one before.
fn eight_loads() -> Case {
    let loads = (0..8).map(|load| fetch(64 + 8 * load, 8));
    let whole = [BEGIN].into_iter().chain(loads).chain([END]).collect();
    let name = "begin, fresh, 64 bytes in 8 fetches of 8, end";
    case(name, REPEATED, vec![], whole)
}

fn end(runs: usize) -> Case {
    let name = format!("end, {}", counted(runs, "run"));
    case(&name, 1, filled(runs), vec![END])
}
