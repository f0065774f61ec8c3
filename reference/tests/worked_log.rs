//! The worked log of 01 (the agreed scope; docs/RULES.md has its rules), byte
//! for byte, and the example files that hold it.

use reference::log;

const FRAMES_FILE: &[u8] = include_bytes!("../../examples/worked.frames");
const LOG_FILE: &[u8] = include_bytes!("../../examples/worked.log");

#[rustfmt::skip]
const FRAMES: [u8; 41] = [
    0x08, 0x00, 0x00, 0x00, 0x00,
    0x60, 0x00, 0x40, 0x00, 0x80, 0x61, 0x62, 0x63, 0x64,
    0x28, 0x00, 0x40, 0x00, 0x80,
    0x60, 0x00, 0x48, 0x00, 0x40, 0x7a, 0x7a,
    0x28, 0x00, 0x38, 0x01, 0x00,
    0x48, 0x00, 0x00, 0x00, 0x00,
    0x28, 0x00, 0x40, 0x00, 0x80,
];

const LOG: &str = "1 B ok\n\
                   2 H ok 4\n\
                   3 F ok 4 0 61626364\n\
                   4 H ok 2\n\
                   5 F ok 4 4 0000616263640000\n\
                   6 E ok 1 8\n\
                   7 F no 21\n";

#[test]
fn the_worked_log_comes_out() {
    assert_eq!(log::run(&FRAMES), LOG);
}

#[test]
fn the_example_files_hold_the_worked_log() {
    assert_eq!(FRAMES_FILE, FRAMES);
    assert_eq!(LOG_FILE, LOG.as_bytes());
}
