//! An independent reading of the format's rules, for its built-in set of four layouts.
//!
//! It has the library's four functions, written anew in plain Rust, so that the two can be
//! compared with each other, in what they answer and in how fast they are.

mod bytes;
mod cut;
mod days;
mod fields;
mod file;
pub mod layouts;
mod line;
mod refusals;
mod report;
mod survey;
mod walk;

pub use file::{judge_file, total, MOST_LINES};
pub use line::judge_line;
pub use report::{report, LONGEST_FILE, MOST_LISTED};
