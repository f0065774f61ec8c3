//! Text as the program quotes it.

/// How many bytes of a text are shown.
const SHOWN: usize = 60;

/// The first 60 bytes, with dots behind them if there are more.
pub fn quoted(text: &[u8]) -> String {
    let front: String = text.iter().take(SHOWN).map(|byte| visible(*byte)).collect();
    let dots = if text.len() > SHOWN { "..." } else { "" };
    front + dots
}

/// A byte as it is if it is a letter, a digit, a sign or a space, and else its
/// number. A backslash starts a number, so it is shown as one.
fn visible(byte: u8) -> String {
    match byte {
        b'\\' | ..=0x1f | 0x7f.. => format!("\\x{byte:02x}"),
        _ => char::from(byte).to_string(),
    }
}
