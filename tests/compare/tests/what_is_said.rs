//! What a log program must say on standard error.

use compare::said::{is_text, said, Counts};
use reference::log;

/// What must be said of an input, whose log the reference gives.
fn of(input: &[u8]) -> String {
    said(input, log::run(input).as_bytes())
}

#[test]
fn the_lines_of_the_log_are_counted() {
    assert_eq!(of(b""), "fetchlog: 0 frames, 0 ok, 0 refused\n");
    assert_eq!(of(&[0; 5]), "fetchlog: 1 frame, 1 ok, 0 refused\n");
    assert_eq!(of(&[0; 20]), "fetchlog: 4 frames, 1 ok, 3 refused\n");
    assert_eq!(
        of(&[0; 19]),
        "fetchlog: 4 frames, 1 ok, 2 refused, 1 unreadable\n"
    );
    let counts = Counts::of_log(b"1 B ok\n2 F ok 0 0 -\n3 F no 21\n4 ? no 5\n");
    let (ok, refused, unreadable) = (counts.ok, counts.refused, counts.unreadable);
    assert_eq!((ok, refused, unreadable), (2, 1, 1));
}

#[test]
fn an_input_that_is_too_long_is_not_counted() {
    let text = "fetchlog: the input is above 32768 bytes, no frame is run\n";
    assert_eq!(of(&[0; 32_769]), text);
    assert_ne!(of(&[0; 32_768]), text);
    let hint = "fetchlog: the input looks like steps; framewriter makes frames of steps\n";
    assert_eq!(of(&[b' '; 32_769]), format!("{hint}{text}"));
}

#[test]
fn steps_are_told_from_frames_that_end_too_soon() {
    let hint = "fetchlog: the input looks like steps; framewriter makes frames of steps\n";
    let unreadable = "fetchlog: 1 frame, 0 ok, 0 refused, 1 unreadable\n";
    assert_eq!(of(b"B 1\n"), format!("{hint}{unreadable}"));
    assert_eq!(of(b"\xff\xfe\0"), format!("{hint}{unreadable}"));
    assert_eq!(of("B 1 # é\n".as_bytes()), format!("{hint}{unreadable}"));
    assert_eq!(of(b"B 1\x7f\n"), unreadable);
    assert_eq!(of(b"     "), "fetchlog: 1 frame, 0 ok, 1 refused\n");
}

#[test]
fn text_has_printable_bytes_and_bytes_beyond_ascii_and_ends_of_lines() {
    let bytes = (0..=255u8).filter(|byte| is_text(&[*byte]));
    let text: Vec<u8> = bytes.collect();
    let written = (0x20..=0x7e).chain(0x80..=0xff).collect::<Vec<u8>>();
    assert_eq!(text, [b"\t\n\r", &written[..]].concat());
    for mark in [&b"\xef\xbb\xbf\0"[..], b"\xff\xfe\0", b"\xfe\xff\0"] {
        assert!(is_text(mark));
        assert!(!is_text(&mark[1..]));
    }
}
