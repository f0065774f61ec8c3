//! Ways to choose a span, each as an address and a length. The second argument
//! is how many addresses there are to choose from.

use crate::generator::Generator;

/// A byte or two, and now and then up to 30, so that records become many.
pub fn small(generator: &mut Generator, window: u64) -> (u64, u64) {
    let longest = if generator.one_in(6) { 30 } else { 2 };
    let length = generator.between(1, longest);
    (generator.below(window - length), length)
}

/// From 500 bytes to some above 4,096, a few of them past the end.
pub fn large(generator: &mut Generator, window: u64) -> (u64, u64) {
    let length = generator.between(500, 4_150);
    (generator.below(window + 10 - length), length)
}

/// Up to 40 bytes, which meet each other if the place is narrow.
pub fn overlapping(generator: &mut Generator, window: u64) -> (u64, u64) {
    (generator.below(window - 40), generator.below(41))
}

/// Eight bytes that touch the eight before and behind, and some across the
/// borders.
pub fn touching(generator: &mut Generator, window: u64) -> (u64, u64) {
    let start = 8 * generator.below(window / 8 - 4);
    if generator.one_in(5) {
        (start + 4, 8 * generator.between(1, 3))
    } else {
        (start, 8)
    }
}

/// One byte at an even address, and one in five times at an odd one, between
/// two of those.
pub fn every_other(generator: &mut Generator, window: u64) -> (u64, u64) {
    let start = 2 * generator.below(window / 2);
    (start + u64::from(generator.one_in(5)), 1)
}

/// Spans around one middle, so that of any two one lies in the other.
pub fn nested(generator: &mut Generator, window: u64) -> (u64, u64) {
    let length = window - generator.between(204, window);
    ((window - length) / 2, length)
}

/// At most 3 bytes, or none, on both sides of the end.
pub fn at_the_end(generator: &mut Generator, window: u64) -> (u64, u64) {
    (window - 6 + generator.below(8), generator.below(4))
}

/// Less than 200 bytes, a few of them past the end.
pub fn medium(generator: &mut Generator, window: u64) -> (u64, u64) {
    let length = generator.below(200);
    (generator.below(window - 100), length)
}

/// All sizes from none to 4,097 at any address.
pub fn any_size(generator: &mut Generator, window: u64) -> (u64, u64) {
    let largest = [1, 4, 60, 700, 4_097][generator.below(5) as usize];
    let length = generator.between(0, largest);
    (generator.below(window + 3), length)
}
