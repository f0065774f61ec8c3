//! The profiles, and the journal that belongs to a seed.

use crate::brims::any_brim;
use crate::draft::{Draft, LONGEST};
use crate::touches::any_touches;
use crate::unreadable::spoil;
use crate::walk::Walk;
use crate::walks::WALKS;

/// A way to make a journal.
#[derive(Clone, Copy)]
pub enum Profile {
    /// One stretch of a kind.
    Walk(&'static Walk),
    /// Commands that are brought to their limits.
    Limits,
    /// Commands whose spans touch held ones.
    Touches,
    /// A short journal that ends in a frame that cannot be read.
    Unreadable,
    /// Stretches of every kind.
    Mixed,
}

/// How many profiles there are.
pub const PROFILES: u64 = WALKS.len() as u64 + 4;

/// An input for a log program.
pub struct Journal {
    pub profile: &'static str,
    pub bytes: Vec<u8>,
}

/// The journal of a seed. Seeds that follow each other go through all
/// profiles in turn.
pub fn journal(seed: u64) -> Journal {
    let profile = Profile::of(seed);
    let mut draft = Draft::new(seed, LONGEST);
    profile.make(&mut draft);
    Journal {
        profile: profile.name(),
        bytes: draft.into_bytes(),
    }
}

impl Profile {
    /// The profile of a seed's journal.
    pub fn of(seed: u64) -> Profile {
        let number = (seed % PROFILES) as usize;
        match number.checked_sub(WALKS.len()) {
            None => Profile::Walk(WALKS[number]),
            Some(0) => Profile::Limits,
            Some(1) => Profile::Touches,
            Some(2) => Profile::Unreadable,
            Some(_) => Profile::Mixed,
        }
    }

    pub fn name(self) -> &'static str {
        match self {
            Profile::Walk(walk) => walk.name,
            Profile::Limits => "limits of a command",
            Profile::Touches => "spans that touch held ones",
            Profile::Unreadable => "unreadable frames",
            Profile::Mixed => "mixed",
        }
    }

    fn make(self, draft: &mut Draft) {
        match self {
            Profile::Walk(walk) => whole(draft, walk),
            Profile::Limits => limits(draft),
            Profile::Touches => touches(draft),
            Profile::Unreadable => unreadable(draft),
            Profile::Mixed => mixed(draft),
        }
    }
}

/// One stretch and the ends of all commands.
fn whole(draft: &mut Draft, walk: &Walk) {
    walk.journal(draft);
    draft.end_all();
}

/// One to three brims, with frames of any kind between them.
fn limits(draft: &mut Draft) {
    for _ in 0..draft.numbers.between(1, 3) {
        any_walk(draft).stretch(draft, 5);
        any_brim(draft);
    }
    draft.end_all();
}

/// Two to six stretches in which spans touch held ones, with frames of any
/// kind between them.
fn touches(draft: &mut Draft) {
    for _ in 0..draft.numbers.between(2, 6) {
        any_walk(draft).stretch(draft, 5);
        any_touches(draft);
    }
    draft.end_all();
}

/// Up to 40 frames, and one that cannot be read.
fn unreadable(draft: &mut Draft) {
    let walk = any_walk(draft);
    let frames = draft.numbers.below(41);
    walk.stretch(draft, frames);
    spoil(draft, walk);
}

/// Several stretches, now and then a brim, and now and then spans that touch
/// held ones. One journal in four ends in a frame that cannot be read.
fn mixed(draft: &mut Draft) {
    for _ in 0..draft.numbers.between(4, 10) {
        let walk = any_walk(draft);
        let frames = draft.numbers.between(1, walk.frames.0);
        walk.stretch(draft, frames);
        if draft.numbers.one_in(12) {
            any_brim(draft);
        }
        if draft.numbers.one_in(12) {
            any_touches(draft);
        }
    }
    draft.end_all();
    if draft.numbers.one_in(4) {
        let walk = any_walk(draft);
        spoil(draft, walk);
    }
}

/// A kind of stretch by chance.
fn any_walk(draft: &mut Draft) -> &'static Walk {
    WALKS[draft.numbers.below(WALKS.len() as u64) as usize]
}
