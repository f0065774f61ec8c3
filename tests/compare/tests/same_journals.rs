//! A seed gives one journal, here and everywhere, and it fits the program.

use std::collections::BTreeSet;

use compare::journals::{journal, Profile, PROFILES};
use reference::log;

/// The FNV-1a sum of 64 bits.
fn checksum(bytes: &[u8]) -> u64 {
    bytes.iter().fold(0xcbf2_9ce4_8422_2325, |sum, byte| {
        (sum ^ u64::from(*byte)).wrapping_mul(0x0000_0100_0000_01b3)
    })
}

#[test]
fn a_seed_gives_one_journal() {
    for seed in (0..100).chain([u64::MAX - 1, u64::MAX]) {
        let (one, other) = (journal(seed), journal(seed));
        assert_eq!(one.bytes, other.bytes);
        assert_eq!(one.profile, other.profile);
    }
}

/// The sums of the journals of seeds 0 to 15, one of each profile.
const CHECKSUMS: [u64; PROFILES as usize] = [
    0x8c35_8043_b48b_29b4,
    0x6e62_d30e_30da_9e10,
    0x7985_4894_ab47_7a2d,
    0x33cb_7fc7_d8ca_7e35,
    0xaf1e_8985_651e_b42e,
    0x8822_e37e_7a2f_be8d,
    0xcd86_2fbf_738d_625b,
    0x6b70_40ed_3843_d648,
    0x4471_7028_b521_3bf1,
    0xa9f0_51c5_313e_69b0,
    0x69c0_fe6e_5946_ff98,
    0x2f18_f74c_d418_777c,
    0x842f_316e_8a43_7f8e,
    0xdc02_5b8d_31bd_b681,
    0xda44_73ec_3a45_207c,
    0x4d5d_0313_54a1_4694,
];

#[test]
fn the_journals_are_those_of_every_machine() {
    let sums: Vec<u64> = (0..PROFILES)
        .map(|seed| checksum(&journal(seed).bytes))
        .collect();
    assert_eq!(sums, CHECKSUMS);
}

#[test]
fn seeds_that_follow_each_other_go_through_all_profiles() {
    let names: BTreeSet<&str> = (50..50 + PROFILES)
        .map(|seed| journal(seed).profile)
        .collect();
    assert_eq!(names.len() as u64, PROFILES);
    assert_eq!(Profile::of(3).name(), Profile::of(3 + PROFILES).name());
}

#[test]
fn no_two_journals_are_the_same_and_none_is_too_long() {
    let journals: Vec<Vec<u8>> = (0..500).map(|seed| journal(seed).bytes).collect();
    assert!(journals.iter().all(|bytes| bytes.len() <= 32_768));
    assert!(journals.iter().any(|bytes| bytes.len() > 32_760));
    let different: BTreeSet<&Vec<u8>> = journals.iter().collect();
    assert_eq!(different.len(), journals.len());
}

#[test]
fn most_journals_are_read_to_the_end() {
    let readable = |seed: &u64| !log::run(&journal(*seed).bytes).contains('?');
    let count = (0..300).filter(readable).count();
    assert!((250..295).contains(&count), "{count}");
}
