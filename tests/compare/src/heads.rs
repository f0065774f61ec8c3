//! Fixed cases about the five bytes at the front of a frame: each bit of them
//! wrong by itself, and lengths and defects at their limits.

use sampling::layout::{frame, head};

use crate::case::Case;

/// A frame of each kind that is accepted after [`before`].
const KINDS: [(&str, u64, u64, u64, u64); 5] = [
    ("begin", 0, 5, 0, 0),
    ("fetch", 1, 3, 8, 4),
    ("end", 2, 3, 0, 0),
    ("host write", 3, 0, 8, 4),
    ("own write", 4, 3, 8, 4),
];

/// Heads with kind, command, address, length and spare bits at a limit, or
/// with several defects, of which the lowest number counts.
const LIMITS: [(u64, u64, u64, u64, u64); 13] = [
    (1, 3, 0, 4_096, 0),
    (1, 3, 12_288, 4_096, 0),
    (1, 3, 12_289, 4_096, 0),
    (1, 3, 0, 4_097, 0),
    (3, 0, 0, 4_097, 0),
    (4, 3, 0, 4_097, 0),
    (1, 3, 0, 8_191, 0),
    (1, 3, 0, 4_097, 1),
    (0, 3, 0, 4_097, 0),
    (2, 3, 65_535, 8_191, 0),
    (3, 1, 0, 4_097, 0),
    (5, 0, 0, 0, 0),
    (7, 7, 65_535, 8_191, 31),
];

/// All cases of this file.
pub fn cases() -> Vec<Case> {
    let flipped = KINDS
        .iter()
        .flat_map(|kind| (0..40).map(|bit| flip(kind, bit)));
    let limits = LIMITS.iter().map(|fields| {
        let (kind, command, address, length, spare) = *fields;
        let head = head(kind, command, address, length, spare);
        case(&format!("a frame with the fields {fields:?}"), &head)
    });
    flipped.chain(limits).collect()
}

/// A frame of that kind with one bit of its head changed, counted from the
/// most significant one.
fn flip(kind: &(&str, u64, u64, u64, u64), bit: usize) -> Case {
    let (name, kind, command, address, length) = *kind;
    let mut head = head(kind, command, address, length, 0);
    head[bit / 8] ^= 0x80 >> (bit % 8);
    case(&format!("{name} with bit {bit} changed"), &head)
}

/// The head in a journal, with readable frames before and behind it.
fn case(name: &str, head: &[u8]) -> Case {
    Case::of_reference(name, [&before(), head, &behind()].concat())
}

/// Opens command 3 and fetches what the host has written.
fn before() -> Vec<u8> {
    [
        frame(0, 3, 0, 0, &[]),
        frame(3, 0, 6, 8, b"abcdefgh"),
        frame(1, 3, 10, 2, &[]),
    ]
    .concat()
}

/// Four bytes, which are a write's data, and an end of command 3.
fn behind() -> Vec<u8> {
    [b"wxyz".to_vec(), frame(2, 3, 0, 0, &[])].concat()
}
