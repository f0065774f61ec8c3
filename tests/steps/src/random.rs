//! Step files that depend on a seed alone. Half of them have good lines only;
//! in the others some lines are bad, in every way that a line can be.

use sampling::generator::Generator;

use crate::bad::{REFUSED, UNREADABLE};
use crate::case::Case;
use crate::step::Step;

/// What a line is spoiled with.
const BYTES: &[u8] = b"BFEHWXbe 0123456789afAFgG-=#\t\r\n\\.+\0\x1b\x7f\xff\xfe\xef\xbb\xbf";

/// The file of a seed, with what the grammar makes of it.
pub fn case(seed: u64) -> Case {
    Case::of_grammar(&format!("file of seed {seed}"), file(seed))
}

/// The bytes of a file.
fn file(seed: u64) -> Vec<u8> {
    let mut numbers = Generator::new(seed);
    let most = if numbers.one_in(8) { 300 } else { 60 };
    let count = numbers.below(most);
    let bad_one_in = [0, 0, 20, 3][numbers.below(4) as usize];
    let mut file = vec![];
    for _ in 0..count {
        if bad_one_in > 0 && numbers.one_in(bad_one_in) {
            file.extend(bad_line(&mut numbers));
        } else {
            let step = any_step(&mut numbers, 0);
            file.extend(step.any_line(&mut numbers).bytes());
        }
        file.push(b'\n');
        if numbers.one_in(6) {
            file.extend(b" \t# nothing = \n\n");
        }
    }
    if numbers.one_in(3) {
        file.pop();
    }
    file
}

/// A line that is bad, or that may be.
fn bad_line(numbers: &mut Generator) -> Vec<u8> {
    match numbers.below(8) {
        0 => one_of(numbers, UNREADABLE).0.to_vec(),
        1 => one_of(numbers, REFUSED).0.into(),
        2 => {
            let length = numbers.below(70);
            (0..length).map(|_| *one_of(numbers, BYTES)).collect()
        }
        3 => any_step(numbers, 2).any_line(numbers).into(),
        _ => spoiled(numbers),
    }
}

fn one_of<'a, T>(numbers: &mut Generator, choices: &'a [T]) -> &'a T {
    &choices[numbers.below(choices.len() as u64) as usize]
}

/// The line of a step in which a few bytes are other ones, more or missing.
fn spoiled(numbers: &mut Generator) -> Vec<u8> {
    let mut line: Vec<u8> = any_step(numbers, 60).any_line(numbers).into();
    for _ in 0..numbers.between(1, 3) {
        let byte = *one_of(numbers, BYTES);
        let place = numbers.below(line.len().min(20) as u64 + 1) as usize;
        match numbers.below(3) {
            0 => line.insert(place, byte),
            1 if place < line.len() => line[place] = byte,
            _ if place < line.len() => drop(line.remove(place)),
            _ => line.push(byte),
        }
    }
    line
}

/// A step of any kind. One number in so many is too large for a frame; none
/// is, if that is 0.
fn any_step(numbers: &mut Generator, large_one_in: u64) -> Step {
    let kind = numbers.below(5);
    let mut step = Step {
        kind,
        ..Step::default()
    };
    if kind != 3 {
        step.command = edged(numbers, 7, large_one_in);
    }
    if [1, 3, 4].contains(&kind) {
        step.address = edged(numbers, 65_535, large_one_in);
    }
    if kind == 1 {
        step.length = edged(numbers, 4_096, large_one_in);
    }
    if kind >= 3 {
        let largest = [0, 3, 40, 600, 4_096][numbers.below(5) as usize];
        let above = u64::from(large_one_in > 0 && numbers.one_in(large_one_in));
        let length = numbers.between(0, largest) + above;
        step.data = numbers.bytes(length as usize);
    }
    step
}

/// A number up to the largest, often at an end, and one in so many above.
fn edged(numbers: &mut Generator, largest: u64, large_one_in: u64) -> u64 {
    if large_one_in > 0 && numbers.one_in(large_one_in) {
        return if numbers.one_in(2) {
            largest + 1
        } else {
            u64::MAX - numbers.below(9)
        };
    }
    match numbers.below(6) {
        0 => largest,
        1 => 0,
        _ => numbers.between(0, largest),
    }
}
