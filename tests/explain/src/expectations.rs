//! What may stand behind a step and holds, or does not.

use sampling::generator::Generator;

/// An expectation, and whether it holds.
#[derive(Clone, Debug, PartialEq, Eq)]
pub struct Expectation {
    pub text: String,
    pub holds: bool,
}

/// An expectation of an answer, by chance. A fetch may also be expected to
/// deliver bytes.
pub fn any(numbers: &mut Generator, answer: &str, is_fetch: bool) -> Expectation {
    let holds = !numbers.one_in(4);
    let delivered = answer.rsplit(' ').next().unwrap_or_default();
    let delivers = is_fetch && answer.starts_with("ok");
    let text = if holds {
        right(numbers, answer, delivered, delivers)
    } else {
        wrong(numbers, answer, delivered, delivers)
    };
    let text = if numbers.one_in(3) {
        text.to_uppercase()
    } else {
        text
    };
    Expectation { text, holds }
}

/// The answer, the first words of it, or the bytes of a fetch.
fn right(numbers: &mut Generator, answer: &str, delivered: &str, delivers: bool) -> String {
    let words: Vec<&str> = answer.split(' ').collect();
    match numbers.below(3) {
        0 if delivers => delivered.to_string(),
        1 => answer.to_string(),
        _ => words[..numbers.between(1, words.len() as u64) as usize].join(" "),
    }
}

/// Another verdict, a word too many, a last word with a character more or less,
/// other bytes than a fetch delivers, and the last word of a step that delivers
/// none.
fn wrong(numbers: &mut Generator, answer: &str, delivered: &str, delivers: bool) -> String {
    match numbers.below(7) {
        0 if answer.starts_with("ok") => "no".to_string(),
        0 => "ok".to_string(),
        1 => format!("{answer} 0"),
        2 => format!("{answer}0"),
        3 if delivered.len() > 1 => answer[..answer.len() - 1].to_string(),
        4 if delivers => format!("{delivered}00"),
        5 if delivers => format!("{delivered} {delivered}"),
        4 | 5 if delivered != "ok" => delivered.to_string(),
        _ => "zz".to_string(),
    }
}
