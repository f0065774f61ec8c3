//! The figures of a run, and the tables of them.

use std::array;

use crate::cases::{Case, Group};
use crate::stack::Depth;
use crate::work::{ByColumn, Column, COLUMNS};

/// The cost of one call or frame of a case.
pub struct Figures {
    pub group: Group,
    pub name: String,
    pub size: usize,
    /// Payload bytes that it moves.
    moved: usize,
    /// Records that its search looks at.
    pub looked_at: usize,
    pub instructions: ByColumn<f64>,
    pub nanoseconds: ByColumn<f64>,
}

/// What is measured of each.
#[derive(Clone, Copy)]
pub enum Measure {
    Instructions,
    Nanoseconds,
}

pub const MEASURES: [Measure; 2] = [Measure::Instructions, Measure::Nanoseconds];

impl Measure {
    pub fn name(self) -> &'static str {
        match self {
            Measure::Instructions => "instructions",
            Measure::Nanoseconds => "nanoseconds",
        }
    }
}

impl Figures {
    pub fn new(case: &Case, instructions: ByColumn<f64>, nanoseconds: ByColumn<f64>) -> Figures {
        Figures {
            group: case.group,
            name: case.name.clone(),
            size: case.size,
            moved: case.moved / case.units,
            looked_at: case.looked_at(),
            instructions,
            nanoseconds,
        }
    }

    pub fn of(&self, measure: Measure, column: Column) -> Option<f64> {
        let place = COLUMNS.iter().position(|other| *other == column)?;
        match measure {
            Measure::Instructions => self.instructions[place],
            Measure::Nanoseconds => self.nanoseconds[place],
        }
    }

    /// What the proved library takes of what the plain program with checks
    /// takes, of the byte map where the case is one of it.
    pub fn ratio(&self, measure: Measure) -> Option<f64> {
        let [proved, checked] = compared(self.group);
        Some(self.of(measure, proved)? / self.of(measure, checked)?)
    }

    /// What is counted of it beside its cost, and the count.
    fn counted(&self) -> (&'static str, usize) {
        match self.group {
            Group::Search => ("records looked at", self.looked_at),
            _ => ("bytes moved", self.moved),
        }
    }

    fn row(&self, measure: Measure, columns: &[Column]) -> String {
        let ratio = self.ratio(measure);
        let ratio = ratio.map_or("–".to_string(), |ratio| format!("{ratio:.2}"));
        let (_, count) = self.counted();
        let mut row = format!("| {} | {count} | {ratio} |", self.name);
        for column in columns {
            let figure = self.of(measure, *column);
            let figure = figure.map_or("–".to_string(), |figure| format!("{figure:.0}"));
            row += &format!(" {figure} |");
        }
        row + "\n"
    }
}

/// The two columns of which a table has the ratio.
fn compared(group: Group) -> [Column; 2] {
    match group {
        Group::Map => [Column::Map, Column::CheckedMap],
        _ => [Column::Proved, Column::Checked],
    }
}

/// What stands above a column.
pub fn title(column: Column) -> &'static str {
    match column {
        Column::Proved => "proved",
        Column::Checked => "plain, checks",
        Column::Unchecked => "plain, no checks",
        Column::Ranges => "ranges",
        Column::Bitmap => "bitmap",
        Column::Copy => "one copy",
        Column::Map => "byte map, proved",
        Column::CheckedMap => "byte map, plain, checks",
        Column::UncheckedMap => "byte map, plain, no checks",
        Column::Straight => "no cache",
    }
}

/// The same in a table of the byte map, where two kinds of engines stand beside
/// each other.
fn title_in(group: Group, column: Column) -> String {
    match (group, column) {
        (Group::Map, Column::Proved | Column::Checked) => format!("records, {}", title(column)),
        _ => title(column).to_string(),
    }
}

/// The columns that a call has.
pub const OF_CALLS: [Column; 6] = [
    Column::Proved,
    Column::Checked,
    Column::Unchecked,
    Column::Ranges,
    Column::Bitmap,
    Column::Copy,
];

/// The columns that a search has: a copy has nothing to search.
const OF_SEARCHES: [Column; 5] = [
    Column::Proved,
    Column::Checked,
    Column::Unchecked,
    Column::Ranges,
    Column::Bitmap,
];

/// The columns that a walk has.
const OF_WALKS: [Column; 7] = [
    Column::Proved,
    Column::Checked,
    Column::Unchecked,
    Column::Ranges,
    Column::Bitmap,
    Column::Straight,
    Column::Copy,
];

/// The columns that a call has which the byte map makes too: its own come first.
const OF_MAPS: [Column; 8] = [
    Column::Map,
    Column::CheckedMap,
    Column::UncheckedMap,
    Column::Proved,
    Column::Checked,
    Column::Ranges,
    Column::Bitmap,
    Column::Copy,
];

/// The columns that a journal has.
const OF_JOURNALS: [Column; 4] = [
    Column::Proved,
    Column::Checked,
    Column::Unchecked,
    Column::Copy,
];

/// The rows of calls, of searches, of walks, of calls that the byte map makes too,
/// and of journals.
pub fn parted(figures: &[Figures]) -> [Vec<&Figures>; 5] {
    let part = |row: &Figures| match row.group {
        Group::Search => 1,
        Group::Walk => 2,
        Group::Map => 3,
        Group::Frame => 4,
        _ => 0,
    };
    array::from_fn(|place| figures.iter().filter(|row| part(row) == place).collect())
}

/// The tables of calls and of journals, by each measure, and of the stack.
pub fn tables(figures: &[Figures], depths: &[Depth]) -> String {
    let [calls, searches, walks, maps, frames] = parted(figures);
    let mut text = String::new();
    for (title, rows, columns) in [
        ("one call", &calls, &OF_CALLS[..]),
        ("one fetch by its search", &searches, &OF_SEARCHES[..]),
        ("one walk", &walks, &OF_WALKS[..]),
        ("one call that the byte map makes too", &maps, &OF_MAPS[..]),
        ("one frame of a journal", &frames, &OF_JOURNALS[..]),
    ] {
        for measure in MEASURES {
            text += &table(title, measure, rows, columns);
        }
    }
    text + &stack_table(depths)
}

fn table(what: &str, measure: Measure, rows: &[&Figures], columns: &[Column]) -> String {
    let Some(first) = rows.first() else {
        return String::new();
    };
    let (group, (counted, _)) = (first.group, first.counted());
    let mut text = format!("\n### {} of {what}\n\n", capital(measure.name()));
    let [proved, checked] = compared(group).map(title);
    text += &format!("| {what} | {counted} | {proved} : {checked} |");
    text.extend(
        columns
            .iter()
            .map(|column| format!(" {} |", title_in(group, *column))),
    );
    text += &format!("\n|---|---|---|{}\n", "---|".repeat(columns.len()));
    text.extend(rows.iter().map(|row| row.row(measure, columns)));
    text
}

/// A word as the first of a line.
pub fn capital(word: &str) -> String {
    word[..1].to_uppercase() + &word[1..]
}

fn stack_table(depths: &[Depth]) -> String {
    let mut text = "\n### Stack of one call\n\n| call | bytes |\n|---|---|\n".to_string();
    text.extend(
        depths
            .iter()
            .map(|depth| format!("| {} | {} |\n", depth.function, depth.bytes)),
    );
    text
}
