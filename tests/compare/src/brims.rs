//! Stretches that bring a command exactly to one of its two limits and try
//! what is still accepted there.

use crate::draft::{Draft, WINDOW};

/// The most distinct bytes of a command.
const BYTES: u64 = 4_096;

/// The most records of a command.
const RECORDS: u64 = 64;

/// Brings any command to one of its limits, from a new begin on.
pub fn any_brim(draft: &mut Draft) {
    let command = draft.numbers.below(8);
    draft.begin_anew(command);
    if draft.numbers.one_in(3) {
        last_byte(draft, command);
    } else {
        last_record(draft, command);
    }
    if draft.numbers.one_in(2) {
        draft.end(command);
    }
}

/// Fills the command to its last byte with spans side by side; then a byte more
/// is refused, alone or behind held ones (23), and held bytes are not.
fn last_byte(draft: &mut Draft, command: u64) {
    let start = draft.numbers.between(1, WINDOW - BYTES - 1);
    let mut held = 0;
    while held < BYTES {
        let length = draft.numbers.between(1, BYTES - held);
        draft.fetch_or_write(command, start + held, length);
        held += length;
    }
    overwrite(draft, command, start);
    let inside = draft.numbers.below(BYTES);
    let data = draft.numbers.bytes(2);
    draft.fetch(command, start + BYTES, 1);
    draft.own_write(command, start + BYTES - 1, &data);
    draft.fetch(command, start - 1, BYTES);
    draft.own_write(command, start + inside, &data[..1]);
    draft.fetch(command, start + inside, 1);
    draft.fetch(command, start, BYTES);
}

/// Gives the command 64 records of one length, at one distance. Then a record
/// more is refused (24), or too many bytes are (23), which is the lower number;
/// a byte that touches a record is not, and two records that are joined leave
/// room for a new one.
fn last_record(draft: &mut Draft, command: u64) {
    let distance = draft.numbers.between(2, 128);
    let length = draft
        .numbers
        .between(1, (distance - 1).min(BYTES / RECORDS));
    let start = draft.numbers.below(WINDOW - BYTES - 128 * RECORDS - 8);
    let order = 2 * draft.numbers.below(RECORDS / 2) + 1;
    for turn in 0..RECORDS {
        let place = turn * order % RECORDS;
        draft.fetch_or_write(command, start + place * distance, length);
    }
    overwrite(draft, command, start);
    let behind = start + RECORDS * distance;
    let left = BYTES - RECORDS * length;
    draft.fetch(command, behind, 1);
    draft.own_write(command, behind, &[7]);
    draft.fetch(command, behind, left);
    draft.fetch(command, behind, left + 1);
    let touched = draft.numbers.below(RECORDS);
    draft.fetch_or_write(command, start + touched * distance + length, 1);
    let joined = draft.numbers.below(RECORDS - 1);
    draft.fetch_or_write(command, start + joined * distance, distance + 1);
    draft.fetch_or_write(command, behind, 1);
    draft.fetch_or_write(command, behind + 2, 1);
    draft.fetch(command, start, RECORDS * distance);
}

/// Changes the window below some of the held bytes.
fn overwrite(draft: &mut Draft, command: u64, start: u64) {
    let data = draft.numbers.bytes(30);
    draft.host_write(start, &data);
    draft.own_write(command, start + 50, &data);
}
