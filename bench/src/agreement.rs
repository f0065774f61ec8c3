//! The programs must do the same before their costs can be compared.
//!
//! - [`same_journals`]: every journal of the tables, and random ones.
//! - [`same_calls`]: random lists of calls, and every call of the tables.
//! - [`same_walks`]: the same of walks, also beside one without a cache.
//! - [`same_maps`]: the same of the byte map, beside the record engine.
//! - [`parties`]: programs with their buffers.
//! - [`drawn`]: random calls; [`source`]: where they are drawn from.

mod drawn;
mod parties;
mod same_calls;
mod same_journals;
mod same_maps;
mod same_walks;
mod source;

use crate::cases::Case;

/// What is not the same, if anything is not.
pub fn difference(cases: &[Case]) -> Option<String> {
    same_journals::difference(cases)
        .or_else(|| same_calls::difference(cases))
        .or_else(|| same_walks::difference(cases))
        .or_else(|| same_maps::difference(cases))
}
