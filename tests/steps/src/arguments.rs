//! What the command line can ask for.

/// How the program is used.
pub const USAGE: &str = "\
usage: steps FRAMEWRITER [--files N] [--seed S]

Runs the program FRAMEWRITER (a path) on good and on bad steps and holds what
it writes and says against the grammar of steps and the reference's writer.

  --files N  so many random step files (1000)
  --seed S   seed of the first file; the next one has S + 1 (0)

The last line is 'N passed, M failed'. Status: 0 if M is 0, 1 if not, 2 if
nothing could be run.
";

/// The options, each with the number that it has if it is left out.
pub const OPTIONS: [(&str, u64); 2] = [("--files", 1_000), ("--seed", 0)];
