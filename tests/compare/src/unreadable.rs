//! Frames that cannot be read, each with the defect that its function says
//! and some with defects of higher numbers beside it.

use sampling::generator::Generator;
use sampling::layout::head;

use crate::draft::Draft;
use crate::walk::Walk;

/// Adds a frame that cannot be read. Some have readable frames behind them,
/// which must not be carried out.
pub fn spoil(draft: &mut Draft, walk: &Walk) {
    let numbers = &mut draft.numbers;
    let (frame, must_be_last) = match numbers.below(6) {
        0 => (cut_head(numbers), true),
        1 => (cut_data(numbers), true),
        2 => (unknown_kind(numbers), false),
        3 => (field_not_zero(numbers), false),
        4 => (spare_bit(numbers), false),
        _ => (too_long(numbers), false),
    };
    let added = draft.add(&frame);
    if added && !must_be_last {
        walk.stretch(draft, 8);
    }
}

/// From 1 to 4 bytes of any value (1).
fn cut_head(numbers: &mut Generator) -> Vec<u8> {
    let length = numbers.between(1, 4);
    numbers.bytes(length as usize)
}

/// A kind without a meaning; all other fields have any value (2).
fn unknown_kind(numbers: &mut Generator) -> Vec<u8> {
    let kind = numbers.between(5, 7);
    let (command, address) = (numbers.below(8), numbers.below(65_536));
    let (length, spare) = (numbers.below(8_192), numbers.below(32));
    head(kind, command, address, length, spare)
}

/// A begin or an end with an address or a length, or a host write with a
/// command (3).
fn field_not_zero(numbers: &mut Generator) -> Vec<u8> {
    let kind = [0, 2, 3][numbers.below(3) as usize];
    let command = numbers.between(1, 7);
    let (mut address, mut length) = (numbers.between(1, 65_535), numbers.between(1, 8_191));
    match numbers.below(3) {
        0 => address = 0,
        1 => length = 0,
        _ => (),
    }
    head(kind, command, address, length, 0)
}

/// Any kind with all in order but the spare bits (3), and sometimes too long.
fn spare_bit(numbers: &mut Generator) -> Vec<u8> {
    let kind = numbers.below(5);
    let takes_command = kind != 3;
    let takes_span = [1, 3, 4].contains(&kind);
    let command = u64::from(takes_command) * numbers.below(8);
    let address = u64::from(takes_span) * numbers.below(16_384);
    let length = u64::from(takes_span) * numbers.below(4_200);
    let spare = if numbers.one_in(2) {
        1 << numbers.below(5)
    } else {
        numbers.between(1, 31)
    };
    head(kind, command, address, length, spare)
}

/// A fetch or a write of more than 4,096 bytes, the write without data (4).
fn too_long(numbers: &mut Generator) -> Vec<u8> {
    let kind = [1, 3, 4][numbers.below(3) as usize];
    let command = if kind == 3 { 0 } else { numbers.below(8) };
    let length = if numbers.one_in(3) {
        4_097
    } else {
        numbers.between(4_097, 8_191)
    };
    head(kind, command, numbers.below(65_536), length, 0)
}

/// A write with too few of its data (5).
fn cut_data(numbers: &mut Generator) -> Vec<u8> {
    let kind = numbers.between(3, 4);
    let command = if kind == 3 { 0 } else { numbers.below(8) };
    let longest = [3, 60, 4_096][numbers.below(3) as usize];
    let length = numbers.between(1, longest);
    let mut frame = head(kind, command, numbers.below(17_000), length, 0);
    let present = if numbers.one_in(3) {
        length - 1
    } else {
        numbers.below(length)
    };
    frame.extend(numbers.bytes(present as usize));
    frame
}
