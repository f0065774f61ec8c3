//! The tests of the reference, one file for each matter. A new file is listed
//! here, or it is not run.

mod map_scene;
mod model;
mod scene;
mod walk_scene;

mod any_book;
mod broken_books;
mod broken_maps;
mod frames_both_ways;
mod journals;
mod limits_of_calls;
mod limits_of_frames;
mod limits_of_maps;
mod limits_of_walks;
mod log_program;
mod map_beside_records;
mod order_of_map_refusals;
mod order_of_refusals;
mod order_of_walk_refusals;
mod program;
mod random_lists;
mod random_walks;
mod records_looked_at;
mod refusal_numbers;
mod situations;
mod worked_log;
