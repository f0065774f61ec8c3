//! What the figures are measured on.

use std::fs;
use std::process::Command;

/// One sentence that names the processor, the C library and the compiler.
pub fn description() -> String {
    let libc = first_line("getconf", &["GNU_LIBC_VERSION"]);
    let rustc = first_line("rustc", &["--version"]);
    let valgrind = first_line("valgrind", &["--version"]);
    format!(
        "Measured on {}, with {libc}, {rustc} and {valgrind}.\n",
        processor()
    )
}

/// The processor's name and number.
fn processor() -> String {
    let text = fs::read_to_string("/proc/cpuinfo").unwrap_or_default();
    let field = |name: &str| {
        let mut fields = text.lines().filter_map(|line| line.split_once(':'));
        let found = fields.find(|(key, _)| key.trim() == name);
        found.map_or("unknown", |(_, value)| value.trim())
    };
    format!(
        "{} (family {}, model {}, stepping {})",
        field("model name"),
        field("cpu family"),
        field("model"),
        field("stepping")
    )
}

/// What a program says of its version.
fn first_line(program: &str, words: &[&str]) -> String {
    let output = Command::new(program).args(words).output();
    let text = output.map_or(String::new(), |output| {
        String::from_utf8_lossy(&output.stdout).into_owned()
    });
    let line = text.lines().next().map(str::to_string);
    line.unwrap_or_else(|| format!("an unknown {program}"))
}
