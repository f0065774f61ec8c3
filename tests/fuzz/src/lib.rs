//! What libFuzzer runs for each of its inputs: the bytes are read as a list of
//! direct calls, which are made in the proved library and in the reference. At
//! the first call after which the two differ the program tells it and aborts,
//! and the fuzzer keeps the input.
//!
//! - [`input`]: numbers from bytes.
//! - [`list`]: calls from numbers.

mod input;
mod list;

use std::cell::RefCell;
use std::process::abort;
use std::slice;

use calls::file::Item;
use calls::line::Line;
use calls::pair::Pair;
use calls::tally::Tally;

thread_local! {
    /// Both sides, fresh. What a list leaves is put back behind it.
    static PAIR: RefCell<Pair> = RefCell::new(Pair::new("a list of the fuzzer"));
}

/// Makes the calls that the bytes stand for.
///
/// # Safety
///
/// `size` bytes can be read at `data`.
#[no_mangle]
pub unsafe extern "C" fn LLVMFuzzerTestOneInput(data: *const u8, size: usize) -> i32 {
    let bytes = match size {
        0 => &[],
        // SAFETY: as the fuzzer promises
        _ => unsafe { slice::from_raw_parts(data, size) },
    };
    if let Some(complaint) = difference(bytes) {
        eprint!("{complaint}");
        abort();
    }
    0
}

/// What differs first when the calls of the bytes are made from the fresh state.
pub fn difference(bytes: &[u8]) -> Option<String> {
    let lines = [Line::Keep]
        .into_iter()
        .chain(list::lines(bytes))
        .chain([Line::PutBack]);
    PAIR.with_borrow_mut(|pair| {
        let mut first = None;
        for (number, line) in (0..).zip(lines) {
            let item = Item {
                place: format!("line {number}"),
                seed: number,
                line,
            };
            let complaint = pair.carry_out(&item, &mut Tally::default());
            first = first.or(complaint);
        }
        first
    })
}

#[cfg(test)]
mod tests {
    use super::*;

    #[test]
    fn library_and_reference_agree() {
        for length in 0..200 {
            let bytes: Vec<u8> = (0..length).map(|i: u32| (i * i + length) as u8).collect();
            assert_eq!(difference(&bytes), None);
        }
    }
}
