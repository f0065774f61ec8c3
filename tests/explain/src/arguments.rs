//! What the command line can ask for.

/// How the program is used.
pub const USAGE: &str = "\
usage: explain EXPLAIN [--journals N] [--seed S]

Runs the program EXPLAIN (a path) on fixed and on random journals, as frames
and as steps with expectations, and holds what it prints and says against the
reference. Each form of a line is a check of its own: it has to be among the
lines that are compared.

  --journals N  so many random journals (280)
  --seed S      seed of the first journal; the next one has S + 1 (0)

The last line is 'N passed, M failed'. Status: 0 if M is 0, 1 if not, 2 if
nothing could be compared.
";

/// The options, each with the number that it has if it is left out.
pub const OPTIONS: [(&str, u64); 2] = [("--journals", 280), ("--seed", 0)];
