//! The byte map of the library and that of the reference, one from the other, and
//! what settings make of it. Both have the same three parts.

use boundary::ByteMap;
use reference::byte_map;
use reference::limits::MAP_ADDRESSES;

use crate::call::Setting;

/// The reference's map with the parts of the library's.
pub fn expected_of(map: &ByteMap) -> byte_map::ByteMap {
    byte_map::ByteMap {
        open: map.open,
        words: map.words,
        values: map.values,
    }
}

/// The library's map with the parts of the reference's.
pub fn library_of(map: &byte_map::ByteMap) -> ByteMap {
    ByteMap {
        open: map.open,
        words: map.words,
        values: map.values,
    }
}

/// Sets a part of the map, if the setting is one of the map.
pub fn set(map: &mut ByteMap, setting: &Setting) {
    match setting {
        Setting::MapOpen { value } => map.open = *value,
        Setting::MapWords { place, values } => {
            map.words[*place..][..values.len()].copy_from_slice(values);
        }
        Setting::MapValues { place, values } => {
            map.values[*place..][..values.len()].copy_from_slice(values);
        }
        Setting::MapRuns { count, span, step } => {
            for start in (0..*count).map(|place| span.start + place * step) {
                (start..start + span.length).for_each(|address| hold(map, address as usize));
            }
        }
        _ => {}
    }
}

/// Sets the bit of an address and gives it a value that is not zero.
fn hold(map: &mut ByteMap, address: usize) {
    map.words[address / 64] |= 1 << (address % 64);
    map.values[address] = 1 + (address % 255) as u8;
}

/// The address behind the last one of so many spans, each a step further on, if
/// the map has them all.
pub fn end_of_runs(count: u64, start: u64, length: u64, step: u64) -> Option<u64> {
    let last = start.checked_add(count.saturating_sub(1).checked_mul(step)?)?;
    let end = last.checked_add(length)?;
    Some(end).filter(|end| *end <= MAP_ADDRESSES as u64 && step <= MAP_ADDRESSES as u64)
}

#[cfg(test)]
mod tests {
    use super::*;
    use reference::book::Span;

    #[test]
    fn a_map_comes_back_from_the_other_side() {
        let mut map = ByteMap::FRESH;
        map.open = u64::MAX;
        map.words[63] = 1 << 63;
        map.values[4_095] = 255;
        assert_eq!(library_of(&expected_of(&map)), map);
        assert_eq!(expected_of(&ByteMap::FRESH), byte_map::ByteMap::FRESH);
    }

    #[test]
    fn runs_are_set_where_they_are_said_to_be() {
        let mut map = ByteMap::FRESH;
        let span = Span {
            start: 62,
            length: 3,
        };
        let setting = Setting::MapRuns {
            count: 2,
            span,
            step: 64,
        };
        set(&mut map, &setting);
        assert_eq!(map.words[..3], [3 << 62, 1 | 3 << 62, 1]);
        assert_eq!(map.words[3..], [0; 61]);
        assert_eq!(map.values[61..66], [0, 63, 64, 65, 0]);
        assert_eq!(expected_of(&map).held(), 6);
    }

    #[test]
    fn the_end_of_runs_is_in_the_map_or_there_is_none() {
        assert_eq!(end_of_runs(64, 1, 1, 65), None);
        assert_eq!(end_of_runs(64, 0, 1, 65), Some(4_096));
        assert_eq!(end_of_runs(1, 0, 4_096, 0), Some(4_096));
        assert_eq!(end_of_runs(1, 1, 4_096, 0), None);
        assert_eq!(end_of_runs(u64::MAX, 1, 1, u64::MAX), None);
    }
}
