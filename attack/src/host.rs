//! The host: a window in memory that a second thread writes all the time.
//!
//! What that means for the boundary. The library is proved for a window that
//! nobody writes during a call: its promises speak of the bytes that are there
//! at the call, and the host puts there what it likes before each one. This
//! program breaks that on purpose: a fetch whose bytes change meanwhile is
//! outside the proof. In the code one function reads the window, into the
//! store, and every fetch is delivered from the store: what that copy left is
//! what is served until the command ends, however often the copy itself
//! looked. The lists of a walk are such fetches. But the copy's loads are plain
//! ones, and a compiler that takes the window to be unshared may put a second
//! load of it in the place of a load of the store. So whoever lends a live
//! window has duties: it is raw memory and never a Rust reference, since a
//! reference promises that nobody writes; the compiled code that is shipped is
//! shown to deliver from the store alone, by a count of its loads
//! (`tests/loads`) or a trial such as this; and where that is not enough, the
//! boundary copies what a call may read by volatile loads and lends the copy.
//! The state, the store, the destination, and the scratch and the lists of a walk
//! must be out of the host's reach.

use std::ptr;
use std::slice;
use std::sync::atomic::{AtomicBool, AtomicU64, Ordering};
use std::thread;

use boundary::RawWindow;

use crate::lists::{self, Changed, ENTRY};

/// The bytes of the window.
const LENGTH: usize = 16_384;

/// So many times is the byte written before the host looks up.
const BURST: u64 = 64;

/// A window that lives as long as the program and that no reference stands
/// for.
#[derive(Clone, Copy)]
pub struct SharedWindow(RawWindow);

// SAFETY: the memory is never freed, and it is read and written through raw
// pointers alone.
unsafe impl Send for SharedWindow {}
unsafe impl Sync for SharedWindow {}

impl SharedWindow {
    /// A window with the lists in it.
    pub fn new() -> SharedWindow {
        let words = vec![0_u64; LENGTH / ENTRY].into_boxed_slice();
        let start = Box::into_raw(words).cast();
        // SAFETY: the memory has that length, and nobody else has it yet.
        lists::put(unsafe { slice::from_raw_parts_mut(start, LENGTH) });
        SharedWindow(RawWindow {
            start,
            length: LENGTH,
        })
    }

    pub fn raw(self) -> RawWindow {
        self.0
    }

    /// A byte as it stands now.
    pub fn read(self, address: usize) -> u8 {
        assert!(address < LENGTH);
        // SAFETY: the byte lies in the window, which is never freed.
        unsafe { ptr::read_volatile(self.0.start.add(address)) }
    }

    /// The same of a page entry.
    pub fn read_entry(self, address: usize) -> u64 {
        assert!(address < LENGTH && address % ENTRY == 0);
        // SAFETY: the window is made of words of this size.
        let entry = unsafe { ptr::read_volatile(self.0.start.add(address).cast()) };
        u64::from_le(entry)
    }

    fn write(self, address: usize, byte: u8) {
        assert!(address < LENGTH);
        // SAFETY: as above.
        unsafe { ptr::write_volatile(self.0.start.add(address), byte) }
    }

    /// Does the work while a second thread writes one value of a byte after the
    /// other as fast as it can. The answer has the number of those writes.
    pub fn attacked<T>(self, changed: Changed, work: impl FnOnce() -> T) -> (T, u64) {
        let stop = AtomicBool::new(false);
        let writes = AtomicU64::new(0);
        let result = thread::scope(|scope| {
            scope.spawn(|| self.flip_until(changed, &stop, &writes));
            while writes.load(Ordering::Relaxed) == 0 {
                thread::yield_now();
            }
            let result = work();
            stop.store(true, Ordering::Relaxed);
            result
        });
        (result, writes.into_inner())
    }

    fn flip_until(self, changed: Changed, stop: &AtomicBool, writes: &AtomicU64) {
        while !stop.load(Ordering::Relaxed) {
            for _ in 0..BURST / 2 {
                self.write(changed.address, changed.values[0]);
                self.write(changed.address, changed.values[1]);
            }
            writes.fetch_add(BURST, Ordering::Relaxed);
        }
    }
}
