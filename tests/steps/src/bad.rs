//! Lines without a frame, each with the reason that must be given. It is put
//! behind good lines and before good and bad ones, and nothing is written.

use crate::case::Case;
use crate::expected::{bad_lines, complaint};
use crate::grammar::{refusal, HEX, LETTER, MARK, MISSING, MORE, NOTHING, NO_STEP, NUMBER, ODD};
use crate::step::Step;

/// Lines that cannot be read, with the reason.
pub const UNREADABLE: &[(&[u8], &str)] = &[
    (b"X 1", LETTER),
    (b"b 1", LETTER),
    (b"BB 1", LETTER),
    (b"1 B", LETTER),
    (b"B,1", LETTER),
    (b"\xc3\xbc 1", LETTER),
    (b"- 1", LETTER),
    (b"\x00", LETTER),
    (b"\x1b[2J", LETTER),
    (b"\\", LETTER),
    (b"X = ok", LETTER),
    (b"\xef\xbbB 1", LETTER),
    (b"\xffB 1", LETTER),
    (b" \xef\xbb\xbfB 1", LETTER),
    (b"B", MISSING),
    (b"F", MISSING),
    (b"F 1", MISSING),
    (b"F 1 2", MISSING),
    (b"E", MISSING),
    (b"H", MISSING),
    (b"W", MISSING),
    (b"W 1", MISSING),
    (b"B # 1", MISSING),
    (b"B = 1", MISSING),
    (b"F 1 2 = 3", MISSING),
    (b"B 1 -", MORE),
    (b"B 1 00", MORE),
    (b"B 1 2", MORE),
    (b"B 1 zz", MORE),
    (b"B 1 0", MORE),
    (b"B 1 - 2", MORE),
    (b"B 1 00 2", MORE),
    (b"B 9 0", MORE),
    (b"E 1 -", MORE),
    (b"E 9 00", MORE),
    (b"E 1 - -", MORE),
    (b"F 1 2 3 -", MORE),
    (b"F 1 2 3 4", MORE),
    (b"F 1 256 4 61626364", MORE),
    (b"F 9 65536 4097 00", MORE),
    (b"F 1 2 3 00 -", MORE),
    (b"H 1 00 00", MORE),
    (b"H 1 - -", MORE),
    (b"W 1 2 00 3", MORE),
    (b"B 1 2 = ok", MORE),
    (b"B x", NUMBER),
    (b"B -1", NUMBER),
    (b"B +1", NUMBER),
    (b"B 1.0", NUMBER),
    (b"B 0x1", NUMBER),
    (b"B 1_0", NUMBER),
    (b"B -", NUMBER),
    (b"B 1\x0c", NUMBER),
    (b"B 1\x00", NUMBER),
    (b"F 1 a 3", NUMBER),
    (b"F 1 2 3b", NUMBER),
    (b"H - 00", NUMBER),
    (b"W 1 ff 00", NUMBER),
    (b"E 99999999999999999999999999x", NUMBER),
    (b"F x", NUMBER),
    (b"H 0 0g", HEX),
    (b"H 0 zz", HEX),
    (b"H 0 0x00", HEX),
    (b"H 0 --", HEX),
    (b"W 1 2 00-", HEX),
    (b"H 0 @@", HEX),
    (b"H 0 ``", HEX),
    (b"H 0 ::", HEX),
    (b"H 0 //", HEX),
    (b"H 0 GG", HEX),
    (b"H 0 gg", HEX),
    (b"H 0 z", HEX),
    (b"H 0 zz 00", HEX),
    (b"H 0 0", ODD),
    (b"W 1 2 abc", ODD),
    (b"W 1 2 abc 00", ODD),
    (b"W 9 2 abc", ODD),
    (b"\xef\xbb\xbfB 1", MARK),
    (b"\xef\xbb\xbf", MARK),
    (b"\xef\xbb\xbf# B 1", MARK),
    (b"\xff\xfeB\x00 \x001\x00", MARK),
    (b"\xfe\xff\x00B\x00 \x001", MARK),
    (b"\xff\xfe\xfe\xff", MARK),
    (b"B 1 =", NOTHING),
    (b"B 1=", NOTHING),
    (b"B 1 = \t\r", NOTHING),
    (b"B 1 =# ok", NOTHING),
    (b"H 0 - = # = ok", NOTHING),
    (b"= 04", NO_STEP),
    (b"=04", NO_STEP),
    (b" \t= ok # B 1", NO_STEP),
    (b"== 04", NO_STEP),
];

/// Lines that the writer refuses, with the number of the refusal.
pub const REFUSED: &[(&str, u8)] = &[
    ("F 1 0 4097", 4),
    ("F 1 0 18446744073709551616", 4),
    ("F 9 65536 4097", 4),
    ("F 1 0 4097 = ok", 4),
    ("B 8", 6),
    ("E 8", 6),
    ("F 9 0 4", 6),
    ("W 8 65536 00", 6),
    ("B 18446744073709551615", 6),
    ("B 18446744073709551616", 6),
    ("B 99999999999999999999999999999999999999", 6),
    ("B 8=no 6", 6),
    ("F 1 65536 1", 11),
    ("H 65536 00", 11),
    ("W 1 65536", 11),
    ("W 1 65536 -", 11),
    ("W 1 18446744073709551617 00", 11),
];

/// All cases.
pub fn cases() -> Vec<Case> {
    let unreadable = UNREADABLE
        .iter()
        .map(|(line, reason)| among_good(line, reason));
    let refused = REFUSED
        .iter()
        .map(|(line, number)| among_good(line.as_bytes(), &refusal(*number)));
    let long = [(3, 0), (4, 7)].map(|(kind, command)| {
        let step = Step {
            kind,
            command,
            data: vec![0xab; 4_097],
            ..Step::default()
        };
        among_good(step.plain_line().as_bytes(), &refusal(4))
    });
    unreadable.chain(refused).chain(long).collect()
}

/// The line as the fourth, behind two good lines and an empty one, and before
/// a good and a bad one.
fn among_good(line: &[u8], reason: &str) -> Case {
    let shown: String = line.escape_ascii().to_string().chars().take(40).collect();
    let input = [b"B 3\n\nH 16 61 # a\n", line, b"\nE 3\nX\n"].concat();
    let text = complaint(4, reason, line) + &complaint(6, LETTER, b"X") + &bad_lines(&input, 2);
    Case::new(&format!("the line {shown:?}"), input, &[], &text)
}
