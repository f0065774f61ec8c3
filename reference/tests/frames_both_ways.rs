//! The reader undoes the writer, and each frame that is read is the one that
//! the writer makes, both held against the bit layout of 01 (the agreed scope;
//! docs/RULES.md has its rules).

use reference::frames::{read_frame, write_frame, Frame, Step};
use sampling::generator::Generator;
use sampling::layout::{frame, head};

/// A step as the four numbers and the data that the writer takes.
fn numbers_of<'a>(step: &Step<'a>) -> (u64, u64, u64, u64, &'a [u8]) {
    match *step {
        Step::Begin { command } => (0, command, 0, 0, &[]),
        Step::Fetch {
            command,
            address,
            length,
        } => (1, command, address, length, &[]),
        Step::End { command } => (2, command, 0, 0, &[]),
        Step::HostWrite { address, data } => (3, 0, address, data.len() as u64, data),
        Step::OwnWrite {
            command,
            address,
            data,
        } => (4, command, address, data.len() as u64, data),
    }
}

/// Writes a step, holds the frame against the layout, and reads it back with
/// some bytes behind it.
fn there_and_back(kind: u64, command: u64, address: u64, length: u64, data: &[u8]) {
    let expected = frame(kind, command, address, length, data);
    let mut output = vec![0xa5; expected.len() + 3];
    let made = write_frame(kind, command, address, length, data, &mut output).unwrap();
    assert_eq!(made, expected.len());
    assert_eq!(output[..made], expected);
    assert_eq!(output[made..], [0xa5; 3]);

    let Frame { step, consumed } = read_frame(&output).unwrap();
    assert_eq!(consumed, made);
    assert_eq!(numbers_of(&step), (kind, command, address, length, data));
    assert_eq!(read_frame(&expected), read_frame(&output));
}

#[test]
fn every_command_comes_back() {
    for command in 0..8 {
        there_and_back(0, command, 0, 0, &[]);
        there_and_back(1, command, 4_660, 77, &[]);
        there_and_back(2, command, 0, 0, &[]);
        there_and_back(4, command, 4_660, 3, &[1, 2, 3]);
    }
    there_and_back(3, 0, 4_660, 3, &[1, 2, 3]);
}

#[test]
fn every_address_comes_back() {
    for address in 0..65_536 {
        there_and_back(1, address % 8, address, address % 4_097, &[]);
        there_and_back(3, 0, address, 2, &[0xff, address as u8]);
        there_and_back(4, 7 - address % 8, address, 1, &[address as u8]);
    }
}

#[test]
fn every_length_comes_back() {
    let data = Generator::new(7).bytes(4_096);
    for length in 0..=4_096 {
        there_and_back(1, length % 8, 65_535 - length, length, &[]);
        there_and_back(3, 0, length, length, &data[..length as usize]);
        there_and_back(4, length % 8, 3 * length, length, &data[..length as usize]);
    }
}

/// The number with which the reader must refuse a full frame whose data are
/// all there, taken from the list and the table of kinds.
fn expected_number(kind: u64, command: u64, address: u64, length: u64, spare: u64) -> Option<u8> {
    let forbidden = match kind {
        0 | 2 => address + length,
        3 => command,
        _ => 0,
    };
    if kind >= 5 {
        Some(2)
    } else if forbidden + spare > 0 {
        Some(3)
    } else if length > 4_096 {
        Some(4)
    } else {
        None
    }
}

/// Reads a frame with ample bytes behind it. If it is accepted, the writer
/// must make the same frame of the step.
fn back_and_there(kind: u64, command: u64, address: u64, length: u64, spare: u64) {
    let mut input = head(kind, command, address, length, spare);
    input.resize(5 + 8_192, 0xc3);
    let expected = expected_number(kind, command, address, length, spare);
    match read_frame(&input) {
        Err(refusal) => assert_eq!(Some(refusal.number()), expected),
        Ok(Frame { step, consumed }) => {
            assert_eq!(expected, None);
            let (kind, command, address, length, data) = numbers_of(&step);
            let mut output = vec![0; consumed];
            let made = write_frame(kind, command, address, length, data, &mut output);
            assert_eq!(made, Ok(consumed));
            assert_eq!(output, input[..consumed]);
        }
    }
}

#[test]
fn every_kind_command_and_spare_value_is_read_by_the_rules() {
    for kind in 0..8 {
        for command in 0..8 {
            for spare in 0..32 {
                for (address, length) in [(0, 0), (1, 0), (0, 1), (500, 4_096), (9, 4_097)] {
                    back_and_there(kind, command, address, length, spare);
                }
            }
        }
    }
}

#[test]
fn every_address_and_length_is_read_by_the_rules() {
    for kind in 0..8 {
        for address in (0..65_536).step_by(5) {
            back_and_there(kind, 0, address, address % 8_192, 0);
        }
        for length in 0..8_192 {
            back_and_there(kind, length % 8, 0, length, 0);
        }
    }
}

#[test]
fn any_bytes_are_read_by_the_rules() {
    let mut generator = Generator::new(5);
    for _ in 0..20_000 {
        let rare = |generator: &mut Generator, bound| {
            if generator.one_in(3) {
                generator.below(bound)
            } else {
                0
            }
        };
        let kind = generator.below(8);
        let command = rare(&mut generator, 8);
        let address = rare(&mut generator, 65_536);
        let length = rare(&mut generator, 8_192);
        let spare = rare(&mut generator, 32);
        back_and_there(kind, command, address, length, spare);
    }
}
