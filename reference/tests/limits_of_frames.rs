//! Every refusal number that the frame reader and the frame writer can give,
//! with the values on each side of its limit.

use reference::frames::{read_frame, write_frame};
use sampling::layout::{frame, head};

/// What the reader answers: the bytes taken up, or the refusal number.
fn read(bytes: &[u8]) -> Result<usize, u8> {
    read_frame(bytes)
        .map(|frame| frame.consumed)
        .map_err(|refusal| refusal.number())
}

/// What the writer answers with an output of that length. The output must be
/// unchanged behind the frame, and everywhere after a refusal.
fn write(
    (kind, command, address, length): (u64, u64, u64, u64),
    data: &[u8],
    output_length: usize,
) -> Result<usize, u8> {
    let before: Vec<u8> = (0..output_length).map(|place| place as u8 ^ 0xa5).collect();
    let mut output = before.clone();
    let answer = write_frame(kind, command, address, length, data, &mut output);
    let made = answer.unwrap_or(0);
    assert_eq!(output[made..], before[made..]);
    if answer.is_ok() {
        assert_eq!(output[..made], frame(kind, command, address, length, data));
    }
    answer.map_err(|refusal| refusal.number())
}

/// Enough output for every frame.
const AMPLE: usize = 5_000;

#[test]
fn reader_1_fewer_than_5_bytes() {
    for full in [
        frame(0, 3, 0, 0, &[]),
        frame(1, 3, 16, 4, &[]),
        frame(4, 3, 16, 0, &[]),
        vec![0xff; 5],
    ] {
        for length in 0..5 {
            assert_eq!(read(&full[..length]), Err(1));
        }
    }
    assert_eq!(read(&frame(0, 3, 0, 0, &[])), Ok(5));
}

#[test]
fn reader_2_kind_5_or_above() {
    for kind in 0..5 {
        assert_eq!(read(&head(kind, 0, 0, 0, 0)), Ok(5));
    }
    for kind in 5..8 {
        assert_eq!(read(&head(kind, 0, 0, 0, 0)), Err(2));
    }
}

#[test]
fn reader_3_each_spare_bit() {
    for kind in 0..5 {
        for spare in 1..32 {
            assert_eq!(read(&head(kind, 0, 0, 0, spare)), Err(3));
        }
    }
}

#[test]
fn reader_3_each_bit_of_a_field_that_must_be_zero() {
    for kind in [0, 2] {
        for bit in 0..16 {
            assert_eq!(read(&head(kind, 5, 1 << bit, 0, 0)), Err(3));
        }
        for bit in 0..13 {
            assert_eq!(read(&head(kind, 5, 0, 1 << bit, 0)), Err(3));
        }
        for command in 0..8 {
            assert_eq!(read(&head(kind, command, 0, 0, 0)), Ok(5));
        }
    }
    for command in 1..8 {
        assert_eq!(read(&head(3, command, 0, 0, 0)), Err(3));
    }
    assert_eq!(read(&head(3, 0, 0, 0, 0)), Ok(5));
}

#[test]
fn reader_4_length_above_4096() {
    for kind in [1, 3, 4] {
        for length in [4_097, 4_098, 6_000, 8_191] {
            let bytes = frame(kind, 0, 0, length, &[7; 8_191]);
            assert_eq!(read(&bytes), Err(4));
        }
    }
    assert_eq!(read(&head(1, 0, 0, 4_096, 0)), Ok(5));
    assert_eq!(read(&frame(3, 0, 0, 4_096, &[7; 4_096])), Ok(4_101));
    assert_eq!(read(&frame(4, 0, 0, 4_096, &[7; 4_096])), Ok(4_101));
}

#[test]
fn reader_5_fewer_data_bytes_than_the_length() {
    for kind in [3, 4] {
        for length in [1, 2, 100, 4_096] {
            let bytes = frame(kind, 0, 0, length as u64, &vec![7; length + 1]);
            assert_eq!(read(&bytes[..5]), Err(5));
            assert_eq!(read(&bytes[..5 + length - 1]), Err(5));
            assert_eq!(read(&bytes[..5 + length]), Ok(5 + length));
            assert_eq!(read(&bytes), Ok(5 + length));
        }
    }
    assert_eq!(read(&frame(1, 0, 0, 100, &[])), Ok(5));
    assert_eq!(read(&frame(1, 0, 0, 100, &[7; 100])), Ok(5));
}

#[test]
fn writer_2_kind_5_or_above() {
    for kind in 0..5 {
        assert_eq!(write((kind, 0, 0, 0), &[], AMPLE), Ok(5));
    }
    for kind in [5, 6, 7, 8, 9, 256, (1 << 32) + 1, u64::MAX] {
        assert_eq!(write((kind, 0, 0, 0), &[], AMPLE), Err(2));
    }
}

#[test]
fn writer_3_a_field_that_must_be_zero() {
    for kind in [0, 2] {
        for value in [1, 2, 4_096, 4_097, 65_535, 65_536, 1 << 32, u64::MAX] {
            assert_eq!(write((kind, 5, value, 0), &[], AMPLE), Err(3));
            assert_eq!(write((kind, 5, 0, value), &[], AMPLE), Err(3));
        }
        assert_eq!(write((kind, 5, 0, 0), &[], AMPLE), Ok(5));
    }
    for command in [1, 7, 8, 9, 256, 1 << 32, u64::MAX] {
        assert_eq!(write((3, command, 0, 0), &[], AMPLE), Err(3));
    }
    assert_eq!(write((3, 0, 0, 0), &[], AMPLE), Ok(5));
}

#[test]
fn writer_4_length_above_4096() {
    for kind in [1, 3, 4] {
        for length in [4_097, 4_098, 8_191, 8_192, 8_193] {
            let data = vec![7; if kind == 1 { 0 } else { length as usize }];
            assert_eq!(write((kind, 0, 0, length), &data, 10_000), Err(4));
        }
        for length in [1 << 32, (1 << 32) + 1, u64::MAX - 4, u64::MAX] {
            assert_eq!(write((kind, 0, 0, length), &[], 10_000), Err(4));
        }
    }
    assert_eq!(write((1, 0, 0, 4_096), &[], AMPLE), Ok(5));
    assert_eq!(write((3, 0, 0, 4_096), &[7; 4_096], AMPLE), Ok(4_101));
    assert_eq!(write((4, 0, 0, 4_096), &[7; 4_096], AMPLE), Ok(4_101));
}

#[test]
fn writer_5_data_not_as_many_as_the_length() {
    for kind in [3, 4] {
        for length in [0, 1, 2, 100, 4_096] {
            let numbers = (kind, 0, 0, length as u64);
            if length > 0 {
                assert_eq!(write(numbers, &vec![7; length - 1], AMPLE), Err(5));
            }
            assert_eq!(write(numbers, &vec![7; length], AMPLE), Ok(5 + length));
            assert_eq!(write(numbers, &vec![7; length + 1], AMPLE), Err(5));
        }
    }
}

#[test]
fn writer_5_any_data_where_none_belong() {
    for (kind, length) in [(0, 0), (1, 0), (1, 1), (1, 100), (2, 0)] {
        assert_eq!(write((kind, 0, 0, length), &[], AMPLE), Ok(5));
        for data_length in [1, 2, 100] {
            let data = vec![7; data_length];
            assert_eq!(write((kind, 0, 0, length), &data, AMPLE), Err(5));
        }
    }
}

#[test]
fn writer_6_command_above_7() {
    for kind in [0, 1, 2, 4] {
        for command in 0..8 {
            assert_eq!(write((kind, command, 0, 0), &[], AMPLE), Ok(5));
        }
        for command in [8, 9, 256, 1 << 32, u64::MAX] {
            assert_eq!(write((kind, command, 0, 0), &[], AMPLE), Err(6));
        }
    }
}

#[test]
fn writer_10_output_shorter_than_the_frame() {
    for (kind, length, data_length) in [
        (0, 0, 0),
        (1, 0, 0),
        (1, 4_096, 0),
        (2, 0, 0),
        (3, 0, 0),
        (3, 10, 10),
        (3, 4_096, 4_096),
        (4, 0, 0),
        (4, 10, 10),
        (4, 4_096, 4_096),
    ] {
        let data = vec![7; data_length];
        let frame_length = 5 + data_length;
        let numbers = (kind, 0, 0, length);
        for output_length in [0, 4, frame_length - 1] {
            assert_eq!(write(numbers, &data, output_length), Err(10));
        }
        for output_length in [frame_length, frame_length + 1, AMPLE] {
            assert_eq!(write(numbers, &data, output_length), Ok(frame_length));
        }
    }
}

#[test]
fn writer_11_address_above_65535() {
    for kind in [1, 3, 4] {
        for address in [0, 65_534, 65_535] {
            assert_eq!(write((kind, 0, address, 0), &[], AMPLE), Ok(5));
        }
        for address in [65_536, 65_537, 1 << 32, u64::MAX] {
            assert_eq!(write((kind, 0, address, 0), &[], AMPLE), Err(11));
        }
    }
}
