//! Times, the shortest of many.

use std::time::Instant;

use crate::cases::Case;
use crate::work::{works, ByColumn, Work, COLUMNS};

/// All cases are gone through so many times, since a machine has slow minutes,
/// and each of them is run so often at a time.
const PASSES: usize = 10;
const ROUNDS: usize = 100;

/// So many times in each round where one run is one call, since a clock is not
/// finer than a few calls.
const SHOTS: usize = 16;

/// The shortest times of a case by column: all of it, and what is to be taken
/// off.
type Shortest = [[f64; 2]; COLUMNS.len()];

/// The nanoseconds of one call or frame of interest of every case.
pub fn all(cases: &[Case]) -> Vec<ByColumn<f64>> {
    let mut shortest = vec![[[f64::INFINITY; 2]; COLUMNS.len()]; cases.len()];
    for _ in 0..PASSES {
        for (case, shortest) in cases.iter().zip(&mut shortest) {
            pass(case, shortest);
        }
    }
    let per_unit = |case: &Case, [whole, base]: [f64; 2]| {
        let difference = (whole - base).max(0.0) / case.units as f64;
        whole.is_finite().then_some(difference)
    };
    let cases = cases.iter().zip(shortest);
    cases
        .map(|(case, shortest)| shortest.map(|times| per_unit(case, times)))
        .collect()
}

/// Measures a case. The programs take turns, so that all have the same weather.
fn pass(case: &Case, shortest: &mut Shortest) {
    let shots = if case.is_single() { SHOTS } else { 1 };
    let mut works = COLUMNS.map(|column| works(case, column));
    for _ in 0..ROUNDS {
        for (works, shortest) in works.iter_mut().zip(&mut *shortest) {
            for (work, shortest) in works.iter_mut().flatten().zip(shortest) {
                *shortest = shortest.min(time(&mut **work, shots));
            }
        }
    }
}

/// The nanoseconds of one run out of so many.
fn time(work: &mut dyn Work, shots: usize) -> f64 {
    let mut sum = 0;
    for _ in 0..shots {
        work.prepare();
        let start = Instant::now();
        work.run();
        sum += start.elapsed().as_nanos();
    }
    sum as f64 / shots as f64
}
