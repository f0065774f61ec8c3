//! What is held is served while the window cannot be read.
//!
//! The window is a page of its own, which is closed after the lists in it were
//! fetched. From then on a read of it is a fault. The fault handler counts it
//! and opens the page, so that the call goes on.

use std::ffi::c_void;
use std::ptr;
use std::slice;
use std::sync::atomic::{AtomicPtr, AtomicUsize, Ordering};

use boundary::RawWindow;

use crate::device::{Device, COMMAND};
use crate::lists::{self, LIST_LENGTH};

const PAGE: usize = 4_096;

/// A command that holds nothing of the lists.
const OTHER: usize = 4;

// The values of Linux on x86-64.
const CLOSED: i32 = 0;
const READ_WRITE: i32 = 3;
const PRIVATE_ANONYMOUS: i32 = 0x22;
const SEGMENT_FAULT: i32 = 11;

extern "C" {
    fn mmap(
        at: *mut c_void,
        length: usize,
        access: i32,
        flags: i32,
        file: i32,
        offset: i64,
    ) -> *mut c_void;
    fn mprotect(at: *mut c_void, length: usize, access: i32) -> i32;
    fn signal(number: i32, handler: usize) -> usize;
    fn abort() -> !;
}

/// How often a closed window was read.
static READS: AtomicUsize = AtomicUsize::new(0);
static WINDOW: AtomicPtr<c_void> = AtomicPtr::new(ptr::null_mut());

/// A call after the window was closed, both lists being held.
pub struct Trial {
    pub name: &'static str,
    command: usize,
    call: Call,
    /// How often it reads the window.
    reads: usize,
}

/// A fetch of so many bytes of the retire list, or a walk of the page list.
#[derive(Clone, Copy)]
enum Call {
    Fetch(usize),
    Walk,
}

/// Lists that are held, and beside them some that are not, so that it is seen
/// that a closed window is noticed.
pub fn trials() -> [Trial; 6] {
    let trial = |name, command, call, reads| Trial {
        name,
        command,
        call,
        reads,
    };
    let (whole, longer) = (Call::Fetch(LIST_LENGTH), Call::Fetch(LIST_LENGTH + 1));
    [
        trial("the whole span is held", COMMAND, whole, 0),
        trial("a part of it", COMMAND, Call::Fetch(1), 0),
        trial("one byte more", COMMAND, longer, 1),
        trial("held by another command", OTHER, whole, 1),
        trial("the page list is held", COMMAND, Call::Walk, 0),
        trial("held by another command", OTHER, Call::Walk, 1),
    ]
}

impl Trial {
    /// Makes the calls. An error says in what they were not as they must be.
    pub fn run(&self) -> Result<(), String> {
        let window = window_with_the_lists();
        let mut device = Device::new(window);
        device.begin(COMMAND);
        device.begin(OTHER);
        let (count, spans) = (device.fetch(COMMAND, LIST_LENGTH), device.walk(COMMAND));
        let (is_same, reads) = with_the_window_closed(window, || {
            let is_same = match self.call {
                Call::Fetch(length) => device.fetch(self.command, length) == count,
                Call::Walk => device.walk(self.command) == spans,
            };
            device.end(COMMAND);
            is_same
        });
        if reads != self.reads {
            return Err(format!("{reads} reads of a closed window"));
        }
        if !is_same {
            return Err("it gives something else than before".to_string());
        }
        Ok(())
    }
}

/// Does the work while the window is closed and the handler is in place. The
/// answer has the number of reads of the window.
fn with_the_window_closed<T>(window: RawWindow, work: impl FnOnce() -> T) -> (T, usize) {
    WINDOW.store(window.start.cast(), Ordering::SeqCst);
    READS.store(0, Ordering::SeqCst);
    // SAFETY: the handler does nothing but open the page of the window.
    let before = unsafe { signal(SEGMENT_FAULT, on_fault as *const () as usize) };
    set_access(CLOSED);
    let result = work();
    set_access(READ_WRITE);
    // SAFETY: puts back the handler that was there.
    unsafe { signal(SEGMENT_FAULT, before) };
    (result, READS.load(Ordering::SeqCst))
}

/// A new page with the lists in it, which is kept until the program ends.
fn window_with_the_lists() -> RawWindow {
    // SAFETY: asks for new memory of one page, which nobody else has yet.
    unsafe {
        let at = mmap(ptr::null_mut(), PAGE, READ_WRITE, PRIVATE_ANONYMOUS, -1, 0);
        assert!(at as isize != -1, "there is no memory");
        let start: *mut u8 = at.cast();
        lists::put(slice::from_raw_parts_mut(start, PAGE));
        RawWindow {
            start,
            length: PAGE,
        }
    }
}

/// Opens or closes the page of the window.
fn set_access(access: i32) {
    let window = WINDOW.load(Ordering::SeqCst);
    // SAFETY: the page is one of those that were asked for above. What becomes
    // of a read of it is what is tried here.
    if unsafe { mprotect(window, PAGE, access) } != 0 {
        // SAFETY: ends the program.
        unsafe { abort() }
    }
}

/// A read of the closed window, which is then open. There is no second one.
extern "C" fn on_fault(_: i32) {
    if READS.fetch_add(1, Ordering::SeqCst) > 0 {
        // SAFETY: ends the program.
        unsafe { abort() }
    }
    set_access(READ_WRITE);
}
