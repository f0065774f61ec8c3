//! The grammar's reader and the texts, held against lines and texts that are
//! written down.

use sampling::generator::Generator;
use steps::bad::{REFUSED, UNREADABLE};
use steps::case::{Case, Wanted};
use steps::expected::expected;
use steps::fixed;
use steps::grammar::{self, Line};
use steps::quoted::quoted;
use steps::step::Step;

#[test]
fn the_grammar_gives_the_reasons_that_are_written_down() {
    for (line, reason) in UNREADABLE {
        let shown = line.escape_ascii();
        assert_eq!(
            grammar::read(line),
            Line::Bad(reason.to_string()),
            "{shown}"
        );
    }
    for (line, number) in REFUSED {
        let reason = grammar::refusal(*number);
        assert_eq!(grammar::read(line.as_bytes()), Line::Bad(reason), "{line}");
    }
}

#[test]
fn the_fixed_cases_are_those_of_the_grammar() {
    for case in fixed::cases() {
        let Case { input, said, .. } = &case;
        if let Wanted::Text(text) = said {
            let (frames, said) = expected(input);
            assert_eq!(said, *text, "{}", case.name);
            assert_eq!(frames, case.frames, "{}", case.name);
        }
    }
}

#[test]
fn a_step_is_read_back_from_its_lines() {
    let mut numbers = Generator::new(1);
    for count in 0..5_000 {
        let kind = count % 5;
        let mut step = Step {
            kind,
            ..Step::default()
        };
        if kind != 3 {
            step.command = numbers.below(8);
        }
        if kind == 1 || kind > 2 {
            step.address = numbers.below(65_536);
        }
        if kind == 1 {
            step.length = numbers.below(4_097);
        }
        if kind > 2 {
            let length = numbers.below(50) as usize;
            step.data = numbers.bytes(length);
        }
        let frame = Line::Frame(step.frame().unwrap());
        assert_eq!(grammar::read(step.plain_line().as_bytes()), frame);
        let line = step.any_line(&mut numbers);
        assert_eq!(grammar::read(line.as_bytes()), frame, "{line:?}");
    }
}

#[test]
fn text_is_quoted_byte_by_byte() {
    let all: Vec<u8> = (0..=255).collect();
    let shown: String = all.chunks(32).map(quoted).collect::<Vec<_>>().join("\n");
    let escaped = |bytes: std::ops::RangeInclusive<u8>| -> String {
        bytes.map(|byte| format!("\\x{byte:02x}")).collect()
    };
    let lines = [
        escaped(0..=0x1f),
        " !\"#$%&'()*+,-./0123456789:;<=>?".to_string(),
        "@ABCDEFGHIJKLMNOPQRSTUVWXYZ[\\x5c]^_".to_string(),
        "`abcdefghijklmnopqrstuvwxyz{|}~\\x7f".to_string(),
        escaped(0x80..=0x9f),
        escaped(0xa0..=0xbf),
        escaped(0xc0..=0xdf),
        escaped(0xe0..=0xff),
    ];
    assert_eq!(shown, lines.join("\n"));
}

#[test]
fn of_a_long_text_60_bytes_are_shown() {
    assert_eq!(quoted(&[b'a'; 60]), "a".repeat(60));
    assert_eq!(quoted(&[b'a'; 61]), "a".repeat(60) + "...");
    assert_eq!(quoted(&[0; 1_000]), "\\x00".repeat(60) + "...");
    assert_eq!(quoted(b""), "");
}
