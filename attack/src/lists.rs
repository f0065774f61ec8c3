//! The two lists in the window, and the byte of each that the host changes.

use std::array;

/// A byte of the window that the host writes, and the two values that it gets in
/// turns.
#[derive(Clone, Copy)]
pub struct Changed {
    pub address: usize,
    pub values: [u8; 2],
}

/// Where the retire list is: its count, and then its tags.
pub const LIST: usize = 64;

/// The count that passes a check, and the one that takes live data.
pub const COUNT: Changed = Changed {
    address: LIST,
    values: [4, 40],
};

/// Two bytes for each of 40 tags behind the count.
pub const LIST_LENGTH: usize = 1 + 2 * COUNT.values[1] as usize;

/// Where a transfer starts, inside its first page, and its bytes: as many as it can
/// have.
pub const PRP1: u64 = 0x10_0200;
pub const TRANSFER: usize = 65_536;

/// How many pages it touches.
pub const SPANS: usize = 17;

/// Where the page list is, with the addresses of all pages but the first.
pub const PAGE_LIST: usize = 1_024;

/// The bytes of an entry, and the place of the one that the host changes: it has the
/// address of the transfer's own page, or that of a page with live data. The two
/// differ in one byte, so that nobody can read half of each.
pub const ENTRY: usize = 8;
const MIDDLE: usize = 7;
pub const PAGE_ENTRY: Changed = Changed {
    address: PAGE_LIST + ENTRY * MIDDLE + 2,
    values: [0x10, 0x70],
};

const PAGE: usize = 4_096;

/// Puts both lists into a window, with tags behind the count.
pub fn put(window: &mut [u8]) {
    for (place, byte) in window.iter_mut().enumerate() {
        *byte = place as u8;
    }
    window[LIST] = COUNT.values[0];
    let list = window[PAGE_LIST..].chunks_exact_mut(ENTRY);
    for (place, entry) in list.take(SPANS - 1).enumerate() {
        let page = PRP1 / PAGE as u64 + place as u64 + 1;
        entry.copy_from_slice(&(PAGE as u64 * page).to_le_bytes());
    }
}

/// The spans of the transfer.
#[derive(Clone, Copy, Debug, PartialEq, Eq)]
pub struct Spans {
    pub addresses: [u64; SPANS],
    pub lengths: [u32; SPANS],
}

impl Spans {
    pub const NONE: Spans = Spans {
        addresses: [0; SPANS],
        lengths: [0; SPANS],
    };

    /// The spans as firmware gets them without a cache, which reads each entry by its
    /// address when it comes to it.
    pub fn walked(read: impl Fn(usize) -> u64) -> Spans {
        let address = |place: usize| match place {
            0 => PRP1,
            _ => read(PAGE_LIST + ENTRY * (place - 1)),
        };
        let start = PRP1 as usize % PAGE;
        let length = |place: usize| {
            let end = (PAGE * (place + 1)).min(start + TRANSFER);
            (end - start.max(PAGE * place)) as u32
        };
        Spans {
            addresses: array::from_fn(address),
            lengths: array::from_fn(length),
        }
    }

    /// The changed byte of the address that has it.
    pub fn changed(&self) -> u8 {
        self.addresses[MIDDLE + 1].to_le_bytes()[PAGE_ENTRY.address % ENTRY]
    }
}
