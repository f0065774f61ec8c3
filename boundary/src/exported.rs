//! The archive's functions and replies, as they are declared for C.
//!
//! The reply of a call begins with its status, 0 or the number of a refusal; of
//! a refused call the other members are 0.

#[repr(C)]
#[derive(Clone, Copy, Debug, PartialEq, Eq)]
pub struct Begun {
    pub status: u32,
}

/// How many records and distinct bytes the command had.
#[repr(C)]
#[derive(Clone, Copy, Debug, PartialEq, Eq)]
pub struct Ended {
    pub status: u32,
    pub records: usize,
    pub bytes: usize,
}

/// How many bytes of the span were fresh and how many were replayed, and how many
/// records the search for it looked at, which is 0 of a byte map.
#[repr(C)]
#[derive(Clone, Copy, Debug, PartialEq, Eq)]
pub struct Fetched {
    pub status: u32,
    pub fresh: usize,
    pub replayed: usize,
    pub looked_at: usize,
}

/// How many bytes were written, and how many of their addresses the command
/// had not held before, which is 0 of a host write.
#[repr(C)]
#[derive(Clone, Copy, Debug, PartialEq, Eq)]
pub struct Written {
    pub status: u32,
    pub bytes: usize,
    pub fresh: usize,
}

/// A record.
#[repr(C)]
#[derive(Clone, Copy, Debug, PartialEq, Eq)]
pub struct Shown {
    pub status: u32,
    pub start: u16,
    pub length: u16,
}

/// How many spans a walk found, each in a page of its own, and how many records all
/// its list fetches looked at.
#[repr(C)]
#[derive(Clone, Copy, Debug, PartialEq, Eq)]
pub struct Walked {
    pub status: u32,
    pub spans: usize,
    pub looked_at: usize,
}

/// The step of a frame, and how many bytes the frame took up.
#[repr(C)]
#[derive(Clone, Copy, Debug, PartialEq, Eq)]
pub struct Step {
    pub status: u32,
    pub kind: usize,
    pub command: usize,
    pub address: usize,
    pub length: usize,
    pub taken: usize,
}

/// How many bytes the frame has.
#[repr(C)]
#[derive(Clone, Copy, Debug, PartialEq, Eq)]
pub struct Framed {
    pub status: u32,
    pub length: usize,
}

/// How many bytes of the log were written, how many frames were carried out
/// and how many a call refused, and 1 if an unreadable frame ended the run. A
/// run has no status.
#[repr(C)]
#[derive(Clone, Copy, Debug, PartialEq, Eq)]
pub struct Replayed {
    pub written: usize,
    pub carried: usize,
    pub refused: usize,
    pub early: u32,
}

extern "C" {
    pub fn doorclover_release() -> u32;

    pub fn doorclover_fresh(state: *mut u16);

    pub fn doorclover_begin(
        state: *mut u16,
        store: *mut u8,
        store_size: usize,
        command: usize,
    ) -> Begun;

    pub fn doorclover_fetch(
        state: *mut u16,
        store: *mut u8,
        store_size: usize,
        window: *const u8,
        window_size: usize,
        destination: *mut u8,
        destination_size: usize,
        command: usize,
        address: usize,
        length: usize,
    ) -> Fetched;

    pub fn doorclover_end(
        state: *mut u16,
        store: *mut u8,
        store_size: usize,
        command: usize,
    ) -> Ended;

    pub fn doorclover_host_write(
        window: *mut u8,
        window_size: usize,
        address: usize,
        bytes: *const u8,
        size: usize,
    ) -> Written;

    pub fn doorclover_own_write(
        state: *mut u16,
        store: *mut u8,
        store_size: usize,
        window: *mut u8,
        window_size: usize,
        command: usize,
        address: usize,
        bytes: *const u8,
        size: usize,
    ) -> Written;

    pub fn doorclover_show(state: *const u16, command: usize, index: usize) -> Shown;

    pub fn doorclover_walk(
        state: *mut u16,
        store: *mut u8,
        store_size: usize,
        window: *const u8,
        window_size: usize,
        scratch: *mut u8,
        scratch_size: usize,
        addresses: *mut u64,
        address_places: usize,
        lengths: *mut u32,
        length_places: usize,
        command: usize,
        prp1: u64,
        prp2: u64,
        transfer: usize,
    ) -> Walked;

    pub fn doorclover_frame_read(frame: *const u8, size: usize) -> Step;

    pub fn doorclover_frame_write(
        output: *mut u8,
        output_size: usize,
        kind: usize,
        command: usize,
        address: usize,
        length: usize,
        data: *const u8,
        data_size: usize,
    ) -> Framed;

    pub fn doorclover_journal_replay(
        journal: *const u8,
        journal_size: usize,
        store: *mut u8,
        store_size: usize,
        window: *mut u8,
        window_size: usize,
        destination: *mut u8,
        destination_size: usize,
        output: *mut u8,
        output_size: usize,
    ) -> Replayed;

    pub fn doorclover_map_fresh(open: *mut u64, words: *mut u64, values: *mut u8);

    pub fn doorclover_map_begin(open: *mut u64, words: *mut u64, values: *mut u8) -> Begun;

    pub fn doorclover_map_fetch(
        open: *const u64,
        words: *mut u64,
        values: *mut u8,
        window: *const u8,
        window_size: usize,
        destination: *mut u8,
        destination_size: usize,
        address: usize,
        length: usize,
    ) -> Fetched;

    pub fn doorclover_map_end(open: *mut u64, words: *mut u64, values: *mut u8) -> Ended;

    pub fn doorclover_map_own_write(
        open: *const u64,
        words: *mut u64,
        values: *mut u8,
        window: *mut u8,
        window_size: usize,
        address: usize,
        bytes: *const u8,
        size: usize,
    ) -> Written;
}
