//! The reader of frames.

use crate::state::TRANSFER;

const HEAD: usize = 5;

/// The letters of the kinds, by number.
const LETTERS: &[u8; 5] = b"BFEHW";

/// What a frame asks for, and how many bytes it took up.
pub struct Frame<'a> {
    pub letter: u8,
    pub command: usize,
    pub address: usize,
    pub length: usize,
    pub data: &'a [u8],
    pub taken: usize,
}

/// Reads the frame at the front of the input, or gives the refusal's number.
pub fn read(input: &[u8]) -> Result<Frame<'_>, u8> {
    let Some((head, rest)) = input.split_first_chunk::<HEAD>() else {
        return Err(1);
    };
    let [a, b, c, d, e] = *head;
    let bits = u64::from_be_bytes([0, 0, 0, a, b, c, d, e]);
    let field = |below: u32, width: u32| (bits >> below) as usize & ((1 << width) - 1);
    let (kind, command) = (field(37, 3), field(34, 3));
    let (address, length, spare) = (field(18, 16), field(5, 13), field(0, 5));
    let letter = *LETTERS.get(kind).ok_or(2)?;
    let forbidden = match letter {
        b'B' | b'E' => address | length,
        b'H' => command,
        _ => 0,
    };
    if forbidden | spare != 0 {
        return Err(3);
    }
    if length > TRANSFER {
        return Err(4);
    }
    let follow = if matches!(letter, b'H' | b'W') {
        length
    } else {
        0
    };
    let data = rest.get(..follow).ok_or(5)?;
    Ok(Frame {
        letter,
        command,
        address,
        length,
        data,
        taken: HEAD + follow,
    })
}
