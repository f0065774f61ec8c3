//! Where the proved library is ahead and where it is behind, in a few lines.

use crate::cases::{Group, RECORDS};
use crate::table::{capital, parted, Figures, Measure, MEASURES};
use crate::work::Column;

/// So many rows that are behind are named, the highest first.
const NAMED: usize = 6;

/// A list of lines for the document's beginning.
pub fn lines(figures: &[Figures]) -> String {
    let [calls, searches, walks, maps, frames] = parted(figures);
    let mut text = String::new();
    for (rows, what) in [
        (&calls, "calls"),
        (&searches, "fetches by their search"),
        (&walks, "walks"),
        (&maps, "calls of the byte map"),
        (&frames, "frames of journals"),
    ] {
        for measure in MEASURES {
            text += &against_checks(rows, what, measure);
        }
    }
    for measure in MEASURES {
        text += &replayed(&calls, measure);
    }
    for measure in MEASURES {
        text += &one_more(&calls, &searches, measure);
    }
    text
}

/// In how many rows the proved library takes no more than the plain program
/// with checks, and in which it takes more.
fn against_checks(rows: &[&Figures], what: &str, measure: Measure) -> String {
    let ratio = |row: &Figures| row.ratio(measure).unwrap_or(f64::NAN);
    let mut rows = rows.to_vec();
    rows.sort_by(|one, other| ratio(one).total_cmp(&ratio(other)));
    let ahead = rows.partition_point(|row| rounded(ratio(row)) <= 1.0);
    let (ahead, behind) = rows.split_at(ahead);
    let mut text = format!(
        "- **{} of {what}, proved : plain with checks**: at or below it in {} of {} rows{}",
        capital(measure.name()),
        ahead.len(),
        rows.len(),
        range(ahead, ratio)
    );
    if !behind.is_empty() {
        let highest = behind.iter().rev().take(NAMED);
        let named = highest.map(|row| format!("{} ({:.2})", row.name, ratio(row)));
        text += &format!("; above it in {}{}: ", behind.len(), range(behind, ratio));
        text += &named.collect::<Vec<_>>().join("; ");
        text += if behind.len() > NAMED { "; .." } else { "" };
    }
    text + ".\n"
}

/// To hundredths, with no sign at a zero.
fn rounded(figure: f64) -> f64 {
    (100.0 * figure).round() / 100.0 + 0.0
}

/// The least and the greatest ratio of rows that are in order.
fn range(rows: &[&Figures], ratio: impl Fn(&Figures) -> f64) -> String {
    match rows {
        [] => String::new(),
        [one] => format!(", {:.2}", ratio(one)),
        [first, .., last] => format!(", {:.2} to {:.2}", ratio(first), ratio(last)),
    }
}

/// What the check takes of a state with so many records.
fn price(calls: &[&Figures], records: usize, measure: Measure, column: Column) -> Option<f64> {
    let row = calls
        .iter()
        .find(|row| row.group == Group::Check(records))?;
    row.of(measure, column)
}

/// Whether replayed fetches keep to twice those without checks and the price
/// of the check.
fn replayed(rows: &[&Figures], measure: Measure) -> String {
    let share = |row: &&Figures| -> Option<f64> {
        let Group::Replayed(records) = row.group else {
            return None;
        };
        let price = price(rows, records, measure, Column::Proved)?;
        let allowed = 2.0 * row.of(measure, Column::Unchecked)? + price;
        Some(row.of(measure, Column::Proved)? / allowed)
    };
    let shares: Vec<f64> = rows.iter().filter_map(share).collect();
    let within = shares.iter().filter(|share| **share <= 1.0).count();
    let most = shares.iter().copied().fold(0.0, f64::max);
    format!(
        "- **{} of replayed fetches**: {within} of {} are within twice the plain program without checks \
         and the price of the check; the highest is {most:.2} of that.\n",
        capital(measure.name()),
        shares.len()
    )
}

/// What one more record takes, the check left out: one that the search looks at, by
/// the rows that look at the most, and one behind it, by those that look at the
/// fewest.
fn one_more(calls: &[&Figures], searches: &[&Figures], measure: Measure) -> String {
    let [.., few, many] = RECORDS;
    let with = |records: usize| searches.iter().filter(move |row| row.size == records);
    let most = [few, many].map(|records| with(records).max_by_key(|row| row.looked_at));
    let fewest = [few, many].map(|records| with(records).min_by_key(|row| row.looked_at));
    let each = |rows: [Option<&&Figures>; 2], column: Column| {
        let [low, high] = rows.map(|row| {
            let price = price(calls, row?.size, measure, column)?;
            Some(row?.of(measure, column)? - price)
        });
        let more = high.zip(low).map_or(f64::NAN, |(high, low)| high - low);
        format!("{:.2}", rounded(more / (many - few) as f64))
    };
    format!(
        "- **{} of one more record**, from {few} to {many}, the check left out: proved {} if the search looks \
         at it and {} if it stands behind; plain with checks {} and {}.\n",
        capital(measure.name()),
        each(most, Column::Proved),
        each(fewest, Column::Proved),
        each(most, Column::Checked),
        each(fewest, Column::Checked)
    )
}
