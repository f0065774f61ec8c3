//! Walks of random lists, and the page entries in the window that many of them
//! find. They are around the borders of pages, so that a list there has few
//! entries up to the end of its page or many.

use reference::limits::{ENTRY_BYTES, PAGE_BYTES};
use reference::walk::Transfer;
use sampling::generator::Generator;

use crate::call::Setting;

const PAGE: u64 = PAGE_BYTES as u64;
const ENTRY: u64 = ENTRY_BYTES as u64;

/// So many entries are put before a border and behind it, some more than a walk
/// needs.
const AROUND: u64 = 18;

/// The borders of the pages of a window, its start included.
pub fn borders(window: u64) -> impl Iterator<Item = u64> {
    (0..=window / PAGE).map(|page| PAGE * page)
}

/// One of these borders.
pub fn border(numbers: &mut Generator, window: u64) -> u64 {
    PAGE * numbers.below(window / PAGE + 1)
}

/// Page entries around a border. Most are right and many lead on into the
/// window.
pub fn entries(numbers: &mut Generator, window: u64, border: u64) -> Setting {
    let start = border.saturating_sub(ENTRY * AROUND);
    let count = (border - start) / ENTRY + AROUND;
    let value = |_| match numbers.below(80) {
        0 => page(numbers) | 1 << numbers.below(12),
        1..=20 => page(numbers),
        _ => self::border(numbers, window),
    };
    Setting::Prps {
        address: start as usize,
        values: (0..count).map(value).collect(),
    }
}

/// The address of a page, low, high or the last one.
fn page(numbers: &mut Generator) -> u64 {
    match numbers.below(10) {
        0 => u64::MAX - (PAGE - 1),
        1..=3 => PAGE * numbers.below(1 << 47),
        _ => PAGE * numbers.below(40),
    }
}

/// A transfer whose PRP2 is mostly of the kind that its length asks for.
pub fn transfer(numbers: &mut Generator, window: u64) -> Transfer {
    let offset = 4 * [0, 1_023, numbers.below(1_024)][numbers.below(3) as usize];
    let (prp1, length) = (page(numbers) + offset, length(numbers, offset));
    let pages = offset.saturating_add(length).div_ceil(PAGE);
    let prp2 = match pages {
        0..=2 => page(numbers),
        _ => list(numbers, window),
    };
    Transfer {
        prp1: nearly(numbers, prp1),
        prp2: nearly(numbers, prp2),
        length,
    }
}

/// A length, often one with which the transfer fills its last page or just does
/// not.
fn length(numbers: &mut Generator, offset: u64) -> u64 {
    match numbers.below(20) {
        0 => [0, 65_537, 1 << 32, u64::MAX][numbers.below(4) as usize],
        1 => 65_536,
        2..=4 => numbers.between(1, 2 * PAGE),
        5..=9 => PAGE * numbers.between(1, 16) - offset + numbers.below(2),
        _ => numbers.between(1, 65_536),
    }
}

/// Where a list starts: some entries before a border, often few, at the border,
/// or one behind it.
fn list(numbers: &mut Generator, window: u64) -> u64 {
    let border = border(numbers, window);
    let most = [4, 9, AROUND][numbers.below(3) as usize];
    match numbers.below(8) {
        0 => border,
        1 => border + ENTRY,
        _ => border.saturating_sub(ENTRY * numbers.between(1, most)),
    }
}

/// The address itself, or rarely one that is off by some bytes or far away.
fn nearly(numbers: &mut Generator, address: u64) -> u64 {
    match numbers.below(60) {
        0 => address | numbers.between(1, 7),
        1 => address | 1 << numbers.below(12),
        2 => address | 1 << numbers.between(40, 63),
        _ => address,
    }
}
