//! What is asked of random lists of every kind.

use crate::file::{read, Item};
use crate::line::Line;

/// A list has so many calls, and is always the same.
pub fn has_its_calls(list: fn(u64) -> Vec<Item>, calls: u64) {
    for seed in [0, 70, u64::MAX] {
        let items = list(seed);
        let made = items
            .iter()
            .filter(|item| matches!(item.line, Line::Call(..)));
        assert_eq!(made.count() as u64, calls);
        assert_eq!(items, list(seed));
    }
}

/// The lines of the first lists are read as what they were written from.
pub fn can_be_read(list: fn(u64) -> Vec<Item>, lists: u64) {
    for seed in 0..lists {
        let items = list(seed);
        let lines: Vec<String> = items.iter().map(|item| item.line.to_string()).collect();
        let found = read(&lines.join("\n")).unwrap();
        let found: Vec<Line> = found.into_iter().map(|item| item.line).collect();
        let expected: Vec<Line> = items.into_iter().map(|item| item.line).collect();
        assert_eq!(found, expected);
    }
}
