//! The numbers of the two lists "Turned away because of the input" and
//! "Turned away because of the state" in 01 (the agreed scope; docs/RULES.md has
//! its rules), and those of the byte map and of the walk, F-2 and F-5 in 02 (the
//! agreed changes).

/// Why a call or a frame is turned away. The order of the cases is the order
/// of their numbers.
#[derive(Clone, Copy, Debug, PartialEq, Eq, PartialOrd, Ord)]
pub enum Refusal {
    /// There are not the 5 bytes that every frame starts with.
    FrameTooShort = 1,
    /// The kind is none of the five that exist.
    KindNotAllowed = 2,
    /// A field that the kind wants zero, or a spare bit, is set.
    MustBeZero = 3,
    /// A fetch or a write of more than 4,096 bytes.
    LengthTooLong = 4,
    /// The data do not fit the length, or stand where none belong.
    DataMismatch = 5,
    /// There is no command of that number.
    NoSuchCommand = 6,
    /// The window is larger than any address can reach.
    WindowTooLong = 7,
    /// The store does not have its one allowed length.
    StoreLength = 8,
    /// The span does not lie inside the present window.
    PastWindow = 9,
    /// The destination or the output has no room for the result, or the scratch
    /// or a list of a walk is too short.
    OutputTooShort = 10,
    /// The address does not fit into a frame.
    AddressTooHigh = 11,
    /// The book breaks one of its own rules.
    BrokenBook = 20,
    /// The command would have to be open.
    NotOpen = 21,
    /// The command would have to be closed.
    AlreadyOpen = 22,
    /// The command would hold more than 4,096 distinct bytes.
    TooManyBytes = 23,
    /// The command would have more than 64 records.
    TooManyRecords = 24,
    /// The command has no record of that index.
    NoSuchRecord = 25,
    /// The window has more addresses than the byte map.
    WindowBeyondMap = 30,
    /// A walk of no bytes or of more than 65,536.
    TransferOutOfRange = 31,
    /// PRP1, PRP2 or an entry of a list is no multiple of what it has to be.
    EntryMisaligned = 32,
}

impl Refusal {
    /// The number that 01 or 02 gives to this case.
    pub fn number(self) -> u8 {
        self as u8
    }
}

/// Answers with the lowest refusal among those marked as applying, and with
/// none if none applies (the rule below the two lists in 01).
pub(crate) fn refuse_lowest<const N: usize>(cases: [(bool, Refusal); N]) -> Result<(), Refusal> {
    let lowest = cases
        .into_iter()
        .filter(|(applies, _)| *applies)
        .map(|(_, refusal)| refusal)
        .min();
    match lowest {
        Some(refusal) => Err(refusal),
        None => Ok(()),
    }
}

/// Answers with the first refusal that is marked as applying, and with none if
/// none applies: for the byte map, whose 30 is judged in the place of 7, and for
/// the walk, whose 31 comes before all others (F-2 and F-5 in 02).
pub(crate) fn refuse_first<const N: usize>(cases: [(bool, Refusal); N]) -> Result<(), Refusal> {
    match cases.into_iter().find(|(applies, _)| *applies) {
        Some((_, refusal)) => Err(refusal),
        None => Ok(()),
    }
}
