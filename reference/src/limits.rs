//! The constants of the device ("Bounds of the device" in 01, the agreed scope;
//! docs/RULES.md has its rules), of the byte map and of the walk (F-2 and F-5 in
//! 02, the agreed changes).

/// How many commands there are; they are numbered from 0.
pub const COMMANDS: usize = 8;

/// The most records that one command may have.
pub const RECORDS_PER_COMMAND: usize = 64;

/// The most distinct bytes that one command may hold; also the size of its
/// part of the store.
pub const HELD_PER_COMMAND: usize = 4_096;

/// The most bytes that one fetch or one write may have.
pub const BYTES_PER_CALL: usize = 4_096;

/// The longest window that may be lent to a call.
pub const WINDOW_BYTES: usize = 65_536;

/// The one length that a store may have.
pub const STORE_BYTES: usize = 32_768;

/// How many addresses a byte map has, and so the longest window that may be lent
/// to its calls.
pub const MAP_ADDRESSES: usize = 4_096;

/// How many words of 64 bits have a bit for each of them.
pub const MAP_WORDS: usize = 64;

/// How many bytes a page has.
pub const PAGE_BYTES: usize = 4_096;

/// How many bytes an entry of a list of pages has.
pub const ENTRY_BYTES: usize = 8;

/// The most bytes of a transfer that is walked.
pub const WALK_TRANSFER_BYTES: usize = 65_536;

/// The most spans that a walk can find, and so the fewest places of its lists.
pub const WALK_SPANS: usize = 17;

/// The fewest bytes of a walk's scratch.
pub const WALK_SCRATCH_BYTES: usize = 128;
