//! The kinds of stretches, with their figures.

use sampling::generator::Generator;
use sampling::spans;

use crate::draft::WINDOW;
use crate::walk::Walk;

/// Every kind of stretch.
pub const WALKS: [&Walk; 12] = [
    &SMALL,
    &LARGE,
    &OVERLAPPING,
    &TOUCHING,
    &SINGLES,
    &NESTED,
    &EMPTY,
    &WINDOW_END,
    &ALL_COMMANDS,
    &OVERWRITTEN,
    &BEGIN_END,
    &ANY_SIZE,
];

/// Many small records, so that a command runs out of them (24).
pub const SMALL: Walk = Walk {
    name: "small spans",
    frames: (150, 500),
    fills: true,
    commands: 2,
    region: 1_000,
    span: spans::small,
    begins: 200,
    ends: 300,
    writes: 12,
};

/// Few large records, so that a command runs out of bytes (23).
pub const LARGE: Walk = Walk {
    name: "large spans",
    frames: (15, 60),
    fills: false,
    commands: 2,
    region: 9_000,
    span: spans::large,
    begins: 60,
    ends: 25,
    writes: 8,
};

/// Spans that share bytes with several earlier ones.
pub const OVERLAPPING: Walk = Walk {
    name: "overlapping spans",
    frames: (80, 300),
    fills: false,
    commands: 2,
    region: 700,
    span: spans::overlapping,
    begins: 60,
    ends: 80,
    writes: 6,
};

/// Spans that start where another one stops.
pub const TOUCHING: Walk = Walk {
    name: "touching spans",
    frames: (60, 300),
    fills: false,
    commands: 1,
    region: 512,
    span: spans::touching,
    begins: 80,
    ends: 60,
    writes: 8,
};

/// Single bytes with gaps of one address, and those that close the gaps.
pub const SINGLES: Walk = Walk {
    name: "single bytes",
    frames: (100, 400),
    fills: false,
    commands: 1,
    region: 260,
    span: spans::every_other,
    begins: 100,
    ends: 150,
    writes: 12,
};

/// Spans inside and around earlier ones.
pub const NESTED: Walk = Walk {
    name: "nested spans",
    frames: (15, 60),
    fills: false,
    commands: 2,
    region: 4_300,
    span: spans::nested,
    begins: 60,
    ends: 15,
    writes: 6,
};

/// Spans without a byte, among short ones.
pub const EMPTY: Walk = Walk {
    name: "empty spans",
    frames: (60, 300),
    fills: true,
    commands: 2,
    region: WINDOW,
    span: often_empty,
    begins: 40,
    ends: 40,
    writes: 6,
};

/// Spans on both sides of the window's end and far past it (9).
pub const WINDOW_END: Walk = Walk {
    name: "end of the window",
    frames: (60, 300),
    fills: true,
    commands: 3,
    region: WINDOW,
    span: at_the_end_or_past,
    begins: 30,
    ends: 30,
    writes: 5,
};

/// All eight commands in turn at the same addresses.
pub const ALL_COMMANDS: Walk = Walk {
    name: "all commands",
    frames: (150, 500),
    fills: false,
    commands: 8,
    region: 2_000,
    span: spans::medium,
    begins: 40,
    ends: 40,
    writes: 6,
};

/// Writes of the host and of the command over bytes that are held.
pub const OVERWRITTEN: Walk = Walk {
    name: "writes over held bytes",
    frames: (80, 300),
    fills: false,
    commands: 3,
    region: 300,
    span: spans::overlapping,
    begins: 60,
    ends: 60,
    writes: 2,
};

/// Commands that come and go, often when they must not (21, 22).
pub const BEGIN_END: Walk = Walk {
    name: "begin and end",
    frames: (60, 300),
    fills: true,
    commands: 8,
    region: 200,
    span: spans::overlapping,
    begins: 3,
    ends: 3,
    writes: 6,
};

/// Spans of every size over the whole window.
pub const ANY_SIZE: Walk = Walk {
    name: "spans of any size",
    frames: (30, 150),
    fills: false,
    commands: 8,
    region: WINDOW,
    span: spans::any_size,
    begins: 60,
    ends: 60,
    writes: 8,
};

/// Half of them have no byte, and a third lie about the end.
fn often_empty(generator: &mut Generator, window: u64) -> (u64, u64) {
    let address = if generator.one_in(3) {
        window - 2 + generator.below(5)
    } else {
        generator.below(400)
    };
    let length = if generator.one_in(2) {
        0
    } else {
        generator.below(6)
    };
    (address, length)
}

/// Most lie about the end, some anywhere, some so high that address plus
/// length is more than 16 bits hold.
fn at_the_end_or_past(generator: &mut Generator, window: u64) -> (u64, u64) {
    match generator.below(8) {
        0 => (generator.below(65_536), generator.below(4_097)),
        1 => (65_535 - generator.below(4), generator.below(4_097)),
        _ => spans::at_the_end(generator, window),
    }
}
