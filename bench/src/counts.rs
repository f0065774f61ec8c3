//! Instructions, counted by valgrind's callgrind in processes of their own, one
//! for each column. Their environment is empty but for one variable, so that
//! the counts are the same in every run.

use std::env;
use std::fs;
use std::io;
use std::path::{Path, PathBuf};
use std::process::Command;

use crate::cases::{self, Case};
use crate::work::{works, ByColumn, Column, Work, COLUMNS};

/// The word before the place of a column, for a process that is counted.
pub const COUNTED: &str = "--counted";

/// Keeps `memset` from using one repeated instruction, which callgrind would
/// count once for each byte.
const TUNABLES: (&str, &str) = (
    "GLIBC_TUNABLES",
    "glibc.cpu.x86_rep_stosb_threshold=1048576:glibc.cpu.x86_rep_movsb_threshold=1048576",
);

/// The instructions of one call or frame of interest of every case.
pub fn all(cases: &[Case]) -> io::Result<Vec<ByColumn<f64>>> {
    let mut counts = vec![[None; COLUMNS.len()]; cases.len()];
    for (place, column) in COLUMNS.into_iter().enumerate() {
        let mut totals = of_column(place)?.into_iter();
        for (case, counts) in cases.iter().zip(&mut counts) {
            if works(case, column).is_some() {
                let mut next = || totals.next().ok_or_else(missing);
                let (whole, base) = (next()?, next()?);
                counts[place] = Some((whole - base) / case.units as f64);
            }
        }
    }
    Ok(counts)
}

fn missing() -> io::Error {
    io::Error::other("callgrind gave no total")
}

/// Starts this program again under callgrind, which writes a file for each run
/// that is counted, and reads the totals.
fn of_column(place: usize) -> io::Result<Vec<f64>> {
    let folder = env::temp_dir().join(format!("counts-{}", std::process::id()));
    fs::create_dir_all(&folder)?;
    let status = Command::new(valgrind()?)
        .env_clear()
        .envs([TUNABLES])
        .args(["-q", "--tool=callgrind", "--toggle-collect=counted_run"])
        .arg("--dump-after=counted_run")
        .arg(format!("--callgrind-out-file={}/run", folder.display()))
        .arg(env::current_exe()?)
        .args([COUNTED, &place.to_string()])
        .status()?;
    let totals = (1..).map_while(|number| total(&folder.join(format!("run.{number}"))));
    let totals = totals.collect();
    fs::remove_dir_all(&folder)?;
    if status.success() {
        Ok(totals)
    } else {
        Err(missing())
    }
}

/// Where valgrind is; the process that is started cannot look for it.
fn valgrind() -> io::Result<PathBuf> {
    let folders = env::var_os("PATH").unwrap_or_default();
    env::split_paths(&folders)
        .map(|folder| folder.join("valgrind"))
        .find(|file| file.is_file())
        .ok_or_else(|| io::Error::other("valgrind is not installed"))
}

/// The total of a file of callgrind.
fn total(file: &Path) -> Option<f64> {
    let text = fs::read_to_string(file).ok()?;
    let total = text
        .lines()
        .find_map(|line| line.strip_prefix("totals: "))?;
    total.trim().parse().ok()
}

/// What the counted process does: each work once to warm up, and once to be
/// counted.
pub fn count(words: &[String]) -> Option<()> {
    let [place] = words else {
        return None;
    };
    let column: Column = *COLUMNS.get(place.parse::<usize>().ok()?)?;
    for case in cases::all() {
        for mut work in works(&case, column).into_iter().flatten() {
            work.prepare();
            work.run();
            work.prepare();
            counted_run(&mut *work);
        }
    }
    Some(())
}

/// The one call that is counted; callgrind finds it by its name.
#[no_mangle]
#[inline(never)]
fn counted_run(work: &mut dyn Work) {
    work.run();
}
