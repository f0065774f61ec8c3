//! The tests of the comparison, one file for each matter. A new file is listed
//! here, or it is not run.

mod census;

mod command_line;
mod first_difference;
mod fixed_cases;
mod same_journals;
mod what_is_said;
mod what_profiles_reach;
mod whole_runs;
