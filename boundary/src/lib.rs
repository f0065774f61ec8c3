//! The functions that the proved library exports, as Rust calls them.
//!
//! The library takes each slice as two arguments, a pointer to its first place
//! and its length, a state as one pointer to its words, and a byte map as one
//! pointer to each of its parts. What it promises of them is in
//! `crates/doorclover/specs`. It asks nothing of their values and lengths; it
//! does rely on what a Rust reference means: the memory is there, no two of the
//! arguments share a byte, and nobody else writes them during the call. The safe
//! functions here have that from their types.
//! [`fetch_in`] and [`walk_in`] do not for the window, and whoever calls them
//! answers for it.

mod exported;

pub use exported::{Begun, Ended, Fetched, Framed, Replayed, Shown, Step, Walked, Written};

/// How many words a state has.
pub const WORDS: usize = 1032;

/// The words of a state: of each command 0 if it is closed and else one more
/// than the number of its records, and then the start and the length of each
/// of its 64 entries.
pub type Words = [u16; WORDS];

/// The parts of a byte map, the engine of one command. They may have any values.
#[derive(Clone, Debug, PartialEq, Eq)]
pub struct ByteMap {
    /// 0 if the command is closed, and anything else if it is open.
    pub open: u64,
    /// A bit for each address, set if it is held: that of address x is bit
    /// x mod 64 of word x / 64.
    pub words: [u64; 64],
    /// The held value of each address; 0 where none is held.
    pub values: [u8; 4096],
}

impl ByteMap {
    /// The fresh map.
    pub const FRESH: ByteMap = ByteMap {
        open: 0,
        words: [0; 64],
        values: [0; 4096],
    };
}

/// A window as a place in memory, for memory that no Rust reference may stand
/// for.
#[derive(Clone, Copy)]
pub struct RawWindow {
    pub start: *mut u8,
    pub length: usize,
}

/// Which interface the archive has.
pub fn release() -> u32 {
    // SAFETY: it takes nothing.
    unsafe { exported::doorclover_release() }
}

/// Makes the fresh state.
pub fn fresh(state: &mut Words) {
    // SAFETY: the words come from a reference.
    unsafe { exported::doorclover_fresh(state.as_mut_ptr()) }
}

pub fn begin(state: &mut Words, store: &mut [u8], command: usize) -> Begun {
    // SAFETY: what is lent comes from references that live through the call.
    unsafe {
        exported::doorclover_begin(state.as_mut_ptr(), store.as_mut_ptr(), store.len(), command)
    }
}

pub fn fetch(
    state: &mut Words,
    store: &mut [u8],
    window: &[u8],
    destination: &mut [u8],
    command: usize,
    address: usize,
    length: usize,
) -> Fetched {
    // SAFETY: what is lent comes from references that live through the call.
    // The window is only read.
    unsafe {
        let window = RawWindow {
            start: window.as_ptr().cast_mut(),
            length: window.len(),
        };
        fetch_in(state, store, window, destination, command, address, length)
    }
}

/// The same on a window that is given by its place.
///
/// # Safety
///
/// The window must be memory that the process may read, and share no byte with
/// what else is lent. Where somebody else writes it during the call, the proof
/// says nothing of the call.
pub unsafe fn fetch_in(
    state: &mut Words,
    store: &mut [u8],
    window: RawWindow,
    destination: &mut [u8],
    command: usize,
    address: usize,
    length: usize,
) -> Fetched {
    exported::doorclover_fetch(
        state.as_mut_ptr(),
        store.as_mut_ptr(),
        store.len(),
        window.start,
        window.length,
        destination.as_mut_ptr(),
        destination.len(),
        command,
        address,
        length,
    )
}

pub fn end(state: &mut Words, store: &mut [u8], command: usize) -> Ended {
    // SAFETY: what is lent comes from references that live through the call.
    unsafe {
        exported::doorclover_end(state.as_mut_ptr(), store.as_mut_ptr(), store.len(), command)
    }
}

pub fn host_write(window: &mut [u8], address: usize, bytes: &[u8]) -> Written {
    // SAFETY: what is lent comes from references that live through the call.
    unsafe {
        exported::doorclover_host_write(
            window.as_mut_ptr(),
            window.len(),
            address,
            bytes.as_ptr(),
            bytes.len(),
        )
    }
}

pub fn own_write(
    state: &mut Words,
    store: &mut [u8],
    window: &mut [u8],
    command: usize,
    address: usize,
    bytes: &[u8],
) -> Written {
    // SAFETY: what is lent comes from references that live through the call.
    unsafe {
        exported::doorclover_own_write(
            state.as_mut_ptr(),
            store.as_mut_ptr(),
            store.len(),
            window.as_mut_ptr(),
            window.len(),
            command,
            address,
            bytes.as_ptr(),
            bytes.len(),
        )
    }
}

pub fn show(state: &Words, command: usize, index: usize) -> Shown {
    // SAFETY: the words come from a reference, and are only read.
    unsafe { exported::doorclover_show(state.as_ptr(), command, index) }
}

/// Walks the page entries of a transfer. The addresses of its spans and their
/// lengths go to the front of the two lists.
#[allow(clippy::too_many_arguments)]
pub fn walk(
    state: &mut Words,
    store: &mut [u8],
    window: &[u8],
    scratch: &mut [u8],
    addresses: &mut [u64],
    lengths: &mut [u32],
    command: usize,
    prp1: u64,
    prp2: u64,
    transfer: usize,
) -> Walked {
    // SAFETY: what is lent comes from references that live through the call.
    // The window is only read.
    unsafe {
        let window = RawWindow {
            start: window.as_ptr().cast_mut(),
            length: window.len(),
        };
        walk_in(
            state, store, window, scratch, addresses, lengths, command, prp1, prp2, transfer,
        )
    }
}

/// The same on a window that is given by its place.
///
/// # Safety
///
/// As for [`fetch_in`].
#[allow(clippy::too_many_arguments)]
pub unsafe fn walk_in(
    state: &mut Words,
    store: &mut [u8],
    window: RawWindow,
    scratch: &mut [u8],
    addresses: &mut [u64],
    lengths: &mut [u32],
    command: usize,
    prp1: u64,
    prp2: u64,
    transfer: usize,
) -> Walked {
    exported::doorclover_walk(
        state.as_mut_ptr(),
        store.as_mut_ptr(),
        store.len(),
        window.start,
        window.length,
        scratch.as_mut_ptr(),
        scratch.len(),
        addresses.as_mut_ptr(),
        addresses.len(),
        lengths.as_mut_ptr(),
        lengths.len(),
        command,
        prp1,
        prp2,
        transfer,
    )
}

pub fn frame_read(frame: &[u8]) -> Step {
    // SAFETY: the frame comes from a reference, and is only read.
    unsafe { exported::doorclover_frame_read(frame.as_ptr(), frame.len()) }
}

pub fn frame_write(
    output: &mut [u8],
    kind: usize,
    command: usize,
    address: usize,
    length: usize,
    data: &[u8],
) -> Framed {
    // SAFETY: what is lent comes from references that live through the call.
    unsafe {
        exported::doorclover_frame_write(
            output.as_mut_ptr(),
            output.len(),
            kind,
            command,
            address,
            length,
            data.as_ptr(),
            data.len(),
        )
    }
}

/// Runs a journal from the fresh state and writes its log.
pub fn journal_replay(
    journal: &[u8],
    store: &mut [u8],
    window: &mut [u8],
    destination: &mut [u8],
    output: &mut [u8],
) -> Replayed {
    // SAFETY: what is lent comes from references that live through the call.
    unsafe {
        exported::doorclover_journal_replay(
            journal.as_ptr(),
            journal.len(),
            store.as_mut_ptr(),
            store.len(),
            window.as_mut_ptr(),
            window.len(),
            destination.as_mut_ptr(),
            destination.len(),
            output.as_mut_ptr(),
            output.len(),
        )
    }
}

/// Makes the fresh map.
pub fn map_fresh(map: &mut ByteMap) {
    let (words, values) = (map.words.as_mut_ptr(), map.values.as_mut_ptr());
    // SAFETY: the parts come from a reference.
    unsafe { exported::doorclover_map_fresh(&mut map.open, words, values) }
}

pub fn map_begin(map: &mut ByteMap) -> Begun {
    let (words, values) = (map.words.as_mut_ptr(), map.values.as_mut_ptr());
    // SAFETY: the parts come from a reference that lives through the call.
    unsafe { exported::doorclover_map_begin(&mut map.open, words, values) }
}

pub fn map_fetch(
    map: &mut ByteMap,
    window: &[u8],
    destination: &mut [u8],
    address: usize,
    length: usize,
) -> Fetched {
    // SAFETY: what is lent comes from references that live through the call.
    unsafe {
        exported::doorclover_map_fetch(
            &map.open,
            map.words.as_mut_ptr(),
            map.values.as_mut_ptr(),
            window.as_ptr(),
            window.len(),
            destination.as_mut_ptr(),
            destination.len(),
            address,
            length,
        )
    }
}

pub fn map_end(map: &mut ByteMap) -> Ended {
    let (words, values) = (map.words.as_mut_ptr(), map.values.as_mut_ptr());
    // SAFETY: the parts come from a reference that lives through the call.
    unsafe { exported::doorclover_map_end(&mut map.open, words, values) }
}

pub fn map_own_write(
    map: &mut ByteMap,
    window: &mut [u8],
    address: usize,
    bytes: &[u8],
) -> Written {
    // SAFETY: what is lent comes from references that live through the call.
    unsafe {
        exported::doorclover_map_own_write(
            &map.open,
            map.words.as_mut_ptr(),
            map.values.as_mut_ptr(),
            window.as_mut_ptr(),
            window.len(),
            address,
            bytes.as_ptr(),
            bytes.len(),
        )
    }
}
