//! The reader and the writer of frames ("Step frames" in 01, the agreed scope;
//! docs/RULES.md has its rules).

use crate::limits::{BYTES_PER_CALL, COMMANDS, WINDOW_BYTES};
use crate::refusal::{refuse_lowest, Refusal};

/// The bytes of a frame that stand before its data.
const HEAD_BYTES: usize = 5;

/// How many bits kind, command, address, length and the spare field have, in
/// the order in which they stand.
const WIDTHS: [u32; 5] = [3, 3, 16, 13, 5];

/// One step as a frame says it, with its data still in the frame.
#[derive(Clone, Copy, Debug, PartialEq, Eq)]
pub enum Step<'a> {
    Begin {
        command: u64,
    },
    Fetch {
        command: u64,
        address: u64,
        length: u64,
    },
    End {
        command: u64,
    },
    HostWrite {
        address: u64,
        data: &'a [u8],
    },
    OwnWrite {
        command: u64,
        address: u64,
        data: &'a [u8],
    },
}

impl Step<'_> {
    /// The letter that the log has for this step.
    pub fn letter(&self) -> char {
        match self {
            Step::Begin { .. } => 'B',
            Step::Fetch { .. } => 'F',
            Step::End { .. } => 'E',
            Step::HostWrite { .. } => 'H',
            Step::OwnWrite { .. } => 'W',
        }
    }
}

/// A step together with the number of bytes that its frame took up.
#[derive(Clone, Copy, Debug, PartialEq, Eq)]
pub struct Frame<'a> {
    pub step: Step<'a>,
    pub consumed: usize,
}

/// Reads the frame at the front of the input. Bytes behind it do not matter.
pub fn read_frame(input: &[u8]) -> Result<Frame<'_>, Refusal> {
    let Some((head, rest)) = input.split_first_chunk::<HEAD_BYTES>() else {
        return Err(Refusal::FrameTooShort);
    };
    let [kind, command, address, length, spare] = unpack(head);
    let kind = Kind::of_number(kind)?;
    let data_length = kind.data_length(length);
    refuse_lowest([
        (
            kind.has_forbidden_field(command, address, length) || spare != 0,
            Refusal::MustBeZero,
        ),
        (length > BYTES_PER_CALL as u64, Refusal::LengthTooLong),
        ((rest.len() as u64) < data_length, Refusal::DataMismatch),
    ])?;
    let data = &rest[..data_length as usize];
    let step = match kind {
        Kind::Begin => Step::Begin { command },
        Kind::Fetch => Step::Fetch {
            command,
            address,
            length,
        },
        Kind::End => Step::End { command },
        Kind::HostWrite => Step::HostWrite { address, data },
        Kind::OwnWrite => Step::OwnWrite {
            command,
            address,
            data,
        },
    };
    Ok(Frame {
        step,
        consumed: HEAD_BYTES + data.len(),
    })
}

/// Makes the frame of a step at the front of the output and answers its
/// length. The output behind the frame stays as it is.
pub fn write_frame(
    kind: u64,
    command: u64,
    address: u64,
    length: u64,
    data: &[u8],
    output: &mut [u8],
) -> Result<usize, Refusal> {
    let known_kind = Kind::of_number(kind)?;
    let data_length = known_kind.data_length(length);
    let frame_length = HEAD_BYTES as u128 + u128::from(data_length);
    refuse_lowest([
        (
            known_kind.has_forbidden_field(command, address, length),
            Refusal::MustBeZero,
        ),
        (length > BYTES_PER_CALL as u64, Refusal::LengthTooLong),
        (data.len() as u64 != data_length, Refusal::DataMismatch),
        (command >= COMMANDS as u64, Refusal::NoSuchCommand),
        (
            (output.len() as u128) < frame_length,
            Refusal::OutputTooShort,
        ),
        (address >= WINDOW_BYTES as u64, Refusal::AddressTooHigh),
    ])?;
    let (head, rest) = output.split_at_mut(HEAD_BYTES);
    head.copy_from_slice(&pack([kind, command, address, length, 0]));
    rest[..data.len()].copy_from_slice(data);
    Ok(HEAD_BYTES + data.len())
}

/// The five kinds that are allowed, in the order of their numbers.
#[derive(Clone, Copy)]
enum Kind {
    Begin,
    Fetch,
    End,
    HostWrite,
    OwnWrite,
}

impl Kind {
    /// The kind of that number. A number without a kind is refused (2), which
    /// is lower than all that is judged after the kind is known.
    fn of_number(number: u64) -> Result<Kind, Refusal> {
        match number {
            0 => Ok(Kind::Begin),
            1 => Ok(Kind::Fetch),
            2 => Ok(Kind::End),
            3 => Ok(Kind::HostWrite),
            4 => Ok(Kind::OwnWrite),
            _ => Err(Refusal::KindNotAllowed),
        }
    }

    /// How many data bytes belong to a frame of this kind and length.
    fn data_length(self, length: u64) -> u64 {
        match self {
            Kind::HostWrite | Kind::OwnWrite => length,
            Kind::Begin | Kind::Fetch | Kind::End => 0,
        }
    }

    /// Whether a field that this kind wants zero is not.
    fn has_forbidden_field(self, command: u64, address: u64, length: u64) -> bool {
        match self {
            Kind::Begin | Kind::End => address != 0 || length != 0,
            Kind::HostWrite => command != 0,
            Kind::Fetch | Kind::OwnWrite => false,
        }
    }
}

/// Takes the fields out of the five bytes, the most significant bit first.
fn unpack(head: &[u8; HEAD_BYTES]) -> [u64; 5] {
    let mut word = head
        .iter()
        .fold(0u64, |word, byte| word << 8 | u64::from(*byte));
    let mut fields = [0; 5];
    for (field, width) in fields.iter_mut().zip(WIDTHS).rev() {
        *field = word & ((1 << width) - 1);
        word >>= width;
    }
    fields
}

/// Puts fields that fit their widths into five bytes, the most significant
/// bit first.
fn pack(fields: [u64; 5]) -> [u8; HEAD_BYTES] {
    let word = fields
        .iter()
        .zip(WIDTHS)
        .fold(0u64, |word, (field, width)| word << width | field);
    let [_, _, _, head @ ..] = word.to_be_bytes();
    head
}
