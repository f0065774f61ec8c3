//! The log program as a function: its lines, its limits, and its end at a
//! frame that cannot be read.

use reference::log;
use sampling::generator::Generator;
use sampling::layout::{frame, head};

use crate::model::Model;

#[test]
fn empty_input_prints_nothing() {
    assert_eq!(log::run(&[]), "");
}

#[test]
fn one_line_for_each_kind() {
    let input = [
        frame(0, 5, 0, 0, &[]),
        frame(3, 0, 100, 3, &[0xab, 0x0c, 0xff]),
        frame(4, 5, 103, 2, &[0x10, 0x9f]),
        frame(1, 5, 99, 7, &[]),
        frame(2, 5, 0, 0, &[]),
    ]
    .concat();
    assert_eq!(
        log::run(&input),
        "1 B ok\n2 H ok 3\n3 W ok 2 2\n4 F ok 5 2 00ab0cff109f00\n5 E ok 1 7\n"
    );
}

#[test]
fn no_bytes_are_printed_as_a_dash() {
    let input = [
        frame(0, 0, 0, 0, &[]),
        frame(1, 0, 16_384, 0, &[]),
        frame(3, 0, 16_384, 0, &[]),
        frame(4, 0, 16_384, 0, &[]),
        frame(2, 0, 0, 0, &[]),
    ]
    .concat();
    assert_eq!(
        log::run(&input),
        "1 B ok\n2 F ok 0 0 -\n3 H ok 0\n4 W ok 0 0\n5 E ok 0 0\n"
    );
}

#[test]
fn a_refused_line_of_each_kind_does_not_end_the_run() {
    let input = [
        frame(1, 1, 0, 1, &[]),
        frame(2, 1, 0, 0, &[]),
        frame(4, 1, 0, 1, &[7]),
        frame(0, 1, 0, 0, &[]),
        frame(0, 1, 0, 0, &[]),
        frame(3, 0, 16_384, 1, &[7]),
        frame(4, 1, 16_383, 2, &[7, 7]),
        frame(1, 1, 65_535, 4_096, &[]),
        frame(1, 1, 16_383, 1, &[]),
    ]
    .concat();
    assert_eq!(
        log::run(&input),
        "1 F no 21\n2 E no 21\n3 W no 21\n4 B ok\n5 B no 22\n6 H no 9\n7 W no 9\n\
         8 F no 9\n9 F ok 1 0 00\n"
    );
}

#[test]
fn full_commands_print_23_and_24() {
    let mut input = frame(0, 0, 0, 0, &[]);
    input.extend(frame(1, 0, 0, 4_096, &[]));
    input.extend(frame(1, 0, 4_096, 1, &[]));
    input.extend(frame(4, 0, 4_095, 2, &[7, 7]));
    input.extend(frame(0, 1, 0, 0, &[]));
    for address in (0..=128).step_by(2) {
        input.extend(frame(1, 1, address, 1, &[]));
    }
    input.extend(frame(4, 1, 128, 1, &[7]));
    input.extend(frame(4, 1, 126, 3, &[7, 8, 9]));
    input.extend(frame(1, 1, 125, 5, &[]));
    let mut expected = format!("1 B ok\n2 F ok 4096 0 {}\n", "00".repeat(4_096));
    expected += "3 F no 23\n4 W no 23\n5 B ok\n";
    for line in 6..70 {
        expected += &format!("{line} F ok 1 0 00\n");
    }
    expected += "70 F no 24\n71 W no 24\n72 W ok 3 2\n73 F ok 2 3 0007080900\n";
    assert_eq!(log::run(&input), expected);
}

#[test]
fn a_frame_that_cannot_be_read_ends_the_run() {
    let good = frame(0, 0, 0, 0, &[]);
    for (bad, number) in [
        (head(5, 0, 0, 0, 0), 2),
        (head(6, 0, 0, 0, 0), 2),
        (head(7, 7, 65_535, 8_191, 31), 2),
        (head(1, 0, 0, 0, 1), 3),
        (head(0, 0, 1, 0, 0), 3),
        (head(3, 1, 0, 0, 0), 3),
        (head(1, 0, 0, 4_097, 0), 4),
        (head(4, 0, 0, 4_097, 0), 4),
    ] {
        let input = [good.clone(), bad, frame(2, 0, 0, 0, &[])].concat();
        let expected = format!("1 B ok\n2 ? no {number}\n");
        assert_eq!(log::run(&input), expected);
    }
}

#[test]
fn a_frame_cut_off_by_the_end_of_the_input_ends_the_run() {
    let good = frame(0, 0, 0, 0, &[]);
    let write = frame(3, 0, 0, 3, &[1, 2, 3]);
    for length in 1..write.len() {
        let input = [&good, &write[..length]].concat();
        let number = if length < 5 { 1 } else { 5 };
        let expected = format!("1 B ok\n2 ? no {number}\n");
        assert_eq!(log::run(&input), expected);
    }
    let input = [&good[..], &write].concat();
    assert_eq!(log::run(&input), "1 B ok\n2 H ok 3\n");
}

#[test]
fn every_byte_is_printed_with_its_two_digits() {
    let all: Vec<u8> = (0..=255).collect();
    let input = [
        frame(3, 0, 0, 256, &all),
        frame(0, 0, 0, 0, &[]),
        frame(1, 0, 0, 256, &[]),
    ]
    .concat();
    let digits = "0123456789abcdef";
    let pairs: String = digits
        .chars()
        .flat_map(|high| digits.chars().map(move |low| format!("{high}{low}")))
        .collect();
    assert_eq!(pairs.len(), 512);
    let expected = format!("1 H ok 256\n2 B ok\n3 F ok 256 0 {pairs}\n");
    assert_eq!(log::run(&input), expected);
}

/// An input of exactly 32,768 bytes: 6,551 begins and one write of 8 bytes.
pub fn longest_input() -> Vec<u8> {
    let mut input = frame(0, 0, 0, 0, &[]).repeat(6_551);
    input.extend(frame(3, 0, 0, 8, &[7; 8]));
    assert_eq!(input.len(), 32_768);
    input
}

/// The log of the longest input.
pub fn longest_log() -> String {
    let mut log = "1 B ok\n".to_string();
    for line in 2..=6_551 {
        log += &format!("{line} B no 22\n");
    }
    log + "6552 H ok 8\n"
}

#[test]
fn input_of_32768_bytes_is_run() {
    assert_eq!(log::run(&longest_input()), longest_log());
    assert_eq!(log::run(&[0xff; 32_768]), "1 ? no 2\n");
}

#[test]
fn input_of_32769_bytes_is_too_long() {
    let mut input = longest_input();
    input.push(0);
    assert_eq!(log::run(&input), "input too long\n");
    assert_eq!(log::run(&[0; 32_769]), "input too long\n");
    assert_eq!(log::run(&[0; 100_000]), "input too long\n");
}

/// Both numbers of a reply as a line has them.
fn two_numbers((one, other): (u64, u64)) -> String {
    format!(" {one} {other}")
}

/// Makes one frame, and the letter and the rest of the line it must have.
fn any_frame(generator: &mut Generator, model: &mut Model) -> (Vec<u8>, char, Result<String, u8>) {
    let command = generator.below(3);
    let longest = [3, 30, 4_096][generator.below(3) as usize];
    let length = generator.between(0, longest);
    let address = match generator.below(8) {
        0 => generator.below(65_536),
        1 => 16_384 - length,
        _ => generator.below(300),
    };
    match generator.below(12) {
        0 | 1 => {
            let answer = model.begin(command).map(|()| String::new());
            (frame(0, command, 0, 0, &[]), 'B', answer)
        }
        2 => {
            let answer = model.end(command).map(two_numbers);
            (frame(2, command, 0, 0, &[]), 'E', answer)
        }
        3 | 4 => {
            let data = generator.bytes(length.min(500) as usize);
            let answer = model.host_write(address, &data);
            let bytes = frame(3, 0, address, data.len() as u64, &data);
            (bytes, 'H', answer.map(|count| format!(" {count}")))
        }
        5 => {
            let data = generator.bytes(length.min(500) as usize);
            let answer = model.own_write(command, address, &data);
            let bytes = frame(4, command, address, data.len() as u64, &data);
            (bytes, 'W', answer.map(two_numbers))
        }
        _ => {
            let rest = model.fetch(command, address, length).map(|delivery| {
                let digits: String = delivery.bytes.iter().map(|b| format!("{b:02x}")).collect();
                let shown = if length == 0 { "-" } else { &digits };
                let counts = delivery.counts;
                format!(" {} {} {shown}", counts.fresh, counts.replayed)
            });
            (frame(1, command, address, length, &[]), 'F', rest)
        }
    }
}

#[test]
fn random_inputs_give_the_log_of_the_model() {
    for seed in 0..200 {
        let mut generator = Generator::new(seed);
        let mut model = Model::fresh(&[0; 32_768], &[0; 16_384]);
        let mut input = vec![];
        let mut expected = String::new();
        for line in 1..=60 {
            let (bytes, letter, answer) = any_frame(&mut generator, &mut model);
            input.extend(bytes);
            expected += &match answer {
                Ok(rest) => format!("{line} {letter} ok{rest}\n"),
                Err(number) => format!("{line} {letter} no {number}\n"),
            };
        }
        assert!(input.len() <= 32_768);
        assert_eq!(log::run(&input), expected);
    }
}
