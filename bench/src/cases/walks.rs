//! Walks: without a list, with a list in one page, and with one that goes on in
//! another page.

use plain::walk::{Transfer, ENTRIES, ENTRY, PAGE, SPANS};

use crate::call::Call;
use crate::cases::{counted, Case, Group, Subject, COMMAND};

/// How often a walk is made that leaves the cache as it was.
const REPEATED: usize = 64;

/// Where a transfer starts, inside its first page.
const START: u64 = 0x1_0000_0200;
const INSIDE: usize = START as usize % PAGE;

/// Where a list stands, and the page that it goes on in.
const LIST: usize = PAGE;
const NEXT: usize = 3 * PAGE;

/// So many entries of a list are in its first page, if it goes on.
const SPLIT: usize = 8;

const BEGIN: Call = Call::Begin { command: COMMAND };
const END: Call = Call::End { command: COMMAND };

/// All cases that are walks.
pub fn all() -> Vec<Case> {
    let shapes = [
        Shape::without_list(1),
        Shape::without_list(2),
        Shape::with_list(3),
        Shape::with_list(SPANS),
        Shape::with_two_lists(),
    ];
    let mut cases: Vec<Case> = shapes.iter().flat_map(Shape::cases).collect();
    cases.push(Shape::with_list(SPANS).over_records());
    cases
}

/// A walk, and the entries that its lists have.
struct Shape {
    name: String,
    walk: Call,
    entries: Vec<Call>,
}

/// A walk over so many pages, whose list or second page is at an address.
fn walk(pages: usize, prp2: u64) -> Call {
    let transfer = Transfer {
        prp1: START,
        prp2,
        length: (PAGE * (pages - 1)).max(INSIDE),
    };
    Call::Walk {
        command: COMMAND,
        transfer,
    }
}

/// The address of a page behind the first, counted from 0.
fn page(place: usize) -> u64 {
    START - INSIDE as u64 + (3 * PAGE * (place + 1)) as u64
}

/// A list from an address on.
fn list(address: usize, entries: impl Iterator<Item = u64>) -> impl Iterator<Item = Call> {
    entries
        .enumerate()
        .map(move |(place, entry)| Call::HostEntry {
            address: address + ENTRY * place,
            entry,
        })
}

impl Shape {
    fn without_list(pages: usize) -> Shape {
        Shape {
            name: counted(pages, "page"),
            walk: walk(pages, page(0)),
            entries: vec![],
        }
    }

    fn with_list(pages: usize) -> Shape {
        Shape {
            name: format!("{pages} pages, list"),
            walk: walk(pages, LIST as u64),
            entries: list(LIST, (0..pages - 1).map(page)).collect(),
        }
    }

    /// The longest list, the last entry of whose first page leads to the next.
    fn with_two_lists() -> Shape {
        let address = LIST + PAGE - ENTRY * SPLIT;
        let first = (0..SPLIT - 1).map(page).chain([NEXT as u64]);
        let second = (SPLIT - 1..ENTRIES).map(page);
        Shape {
            name: format!("{SPANS} pages, two lists"),
            walk: walk(SPANS, address as u64),
            entries: list(address, first).chain(list(NEXT, second)).collect(),
        }
    }

    /// Once with its list fresh and again with it replayed, if it has one; and with
    /// begin and end.
    fn cases(&self) -> Vec<Case> {
        let name = &self.name;
        if self.entries.is_empty() {
            return vec![self.again(name), self.whole(name)];
        }
        let fresh = format!("{name} fresh");
        let replayed = format!("{name} replayed");
        vec![
            self.once(&fresh, &[]),
            self.again(&replayed),
            self.whole(&fresh),
        ]
    }

    /// The entries, and more calls behind them.
    fn after(&self, calls: &[Call]) -> Vec<Call> {
        [&self.entries[..], calls].concat()
    }

    /// The first walk of a command, behind other calls of it.
    fn once(&self, name: &str, calls: &[Call]) -> Case {
        let before = self.after(&[&[BEGIN], calls].concat());
        case(name, 1, before, vec![self.walk])
    }

    /// A walk that was made before.
    fn again(&self, name: &str) -> Case {
        let before = self.after(&[BEGIN, self.walk]);
        case(name, REPEATED, before, vec![self.walk])
    }

    fn whole(&self, name: &str) -> Case {
        let name = format!("begin, {name}, end");
        let unit = vec![BEGIN, self.walk, END];
        case(&name, REPEATED, self.after(&[]), unit)
    }

    /// A walk that makes one record of its list, every other entry of which is one.
    fn over_records(&self) -> Case {
        let name = format!("{} over {} records", self.name, ENTRIES / 2);
        let addresses = (LIST..LIST + ENTRY * ENTRIES).step_by(2 * ENTRY);
        let fetches = addresses.map(|address| Call::Fetch {
            command: COMMAND,
            address,
            length: ENTRY,
        });
        self.once(&name, &fetches.collect::<Vec<Call>>())
    }
}

fn case(name: &str, units: usize, before: Vec<Call>, unit: Vec<Call>) -> Case {
    let subject = Subject::Calls { before, unit };
    Case::new(Group::Walk, name.to_string(), 0, units, subject)
}
