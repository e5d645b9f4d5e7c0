//! A survey of all lines, which goes on after a bad one.

use super::cut::Lines;
use super::line::judge_line;
use super::refusals::{in_file, UNENDED};
use crate::Refusal;

/// What a survey counts. An unended rest is one line more, a bad one.
#[derive(Debug, Default, PartialEq, Eq)]
pub struct Survey {
    pub lines: usize,
    pub bad: usize,
}

/// Surveys all lines; the fault of the k-th bad one goes to the k-th row, while rows last.
pub fn survey(bytes: &[u8], rows: &mut [Option<Refusal>]) -> Survey {
    let lines = Lines::of(bytes);
    let unended = lines.leave_a_rest();
    let mut seen = Survey::default();
    let mut rows = rows.iter_mut();
    let mut note = |fault| {
        seen.bad += 1;
        if let Some(row) = rows.next() {
            *row = Some(fault);
        }
    };
    for line in lines {
        seen.lines += 1;
        if let Err(fault) = judge_line(line) {
            note(fault.of_line(seen.lines));
        }
    }
    if unended {
        seen.lines += 1;
        note(in_file(UNENDED, seen.lines));
    }
    seen
}
