//! What the command line can ask for.

/// How the program is used.
pub const USAGE: &str = "\
usage: compare FETCHLOG [--journals N] [--seed S] [--frames N]

Runs the program FETCHLOG (a path) on fixed and on random journals and holds
what it prints, and the sums that it says, against the reference.

  --journals N  at least N random journals (3000)
  --seed S      seed of the first journal; the next one has S + 1 (0)
  --frames N    goes on until the random journals have N frames (0)

The journal of a seed is always the same. A difference names the seed of its
journal, and '--journals 1 --seed S' compares that one again. Each kind of
accepted call and each refusal that frames can bring about is a check of its
own: it has to be among the lines of the random journals, and fails if these
are too few for it.

The last line is 'N passed, M failed'. Status: 0 if M is 0, 1 if not, 2 if
nothing could be compared.
";

/// The options, each with the number that it has if it is left out.
pub const OPTIONS: [(&str, u64); 3] = [("--journals", 3_000), ("--seed", 0), ("--frames", 0)];
