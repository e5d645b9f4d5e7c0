//! Whole files: the ends of their lines, and their numbers of lines.

use super::Run;
use crate::damage::{damaged, LINE_ENDS};
use crate::inputs::{file_of, smallest, Sample};
use crate::reading::MOST_LINES;

pub fn compare(run: &mut Run, samples: &[Sample]) {
    line_ends(run);
    line_ends_of_samples(run, samples);
    numbers_of_lines(run);
    mixed_files(run);
}

/// All combinations of ends behind three lines, of which two are valid.
fn line_ends(run: &mut Run) {
    run.sides.tally.start("line ends");
    let line = smallest(3).line;
    for first in LINE_ENDS {
        for second in LINE_ENDS {
            for third in LINE_ENDS {
                if run.wants_one_more() {
                    let file = [&line[..], first, &line, second, b"UBT", third].concat();
                    run.sides.file(&file);
                    run.sides.file(&[&file[..], &line, b"\r\n"].concat());
                }
            }
        }
    }
}

fn line_ends_of_samples(run: &mut Run, samples: &[Sample]) {
    run.sides.tally.start("line ends of samples");
    for sample in samples {
        let line = &sample.line[..];
        for end in LINE_ENDS {
            for pieces in [
                &[line, end][..],
                &[end, line, b"\r\n"],
                &[line, end, line, b"\r\n"],
            ] {
                if run.wants_one_more() {
                    run.sides.file(&pieces.concat());
                }
            }
        }
    }
}

/// Files of few and of most lines, with a bad line in telling places.
fn numbers_of_lines(run: &mut Run) {
    run.sides.tally.start("numbers of lines");
    let good = smallest(3).line;
    let bad_lines = [&b""[..], b"UBT04602", b"UBT99999", &good[..241]];
    let kinds = run.amount_of(bad_lines.len(), 1);
    for count in [0, 1, 2, 3, MOST_LINES, MOST_LINES + 1] {
        let lines = vec![&good[..]; count];
        ended_and_unended(run, &file_of(&lines));
        for place in [0, count / 2, count.saturating_sub(1)] {
            for bad in &bad_lines[..kinds] {
                let mut lines = lines.clone();
                lines.splice(place..count.min(place + 1), [*bad]);
                ended_and_unended(run, &file_of(&lines));
            }
        }
    }
}

/// A file as it is, with a byte behind it, and with its last CR LF cut off in part or in whole.
fn ended_and_unended(run: &mut Run, file: &[u8]) {
    run.sides.file(file);
    run.sides.file(&[file, b"\n"].concat());
    for cut_off in [1, 2] {
        run.sides.file(&file[..file.len().saturating_sub(cut_off)]);
    }
}

/// Random lines of all layouts, as they are and damaged.
fn mixed_files(run: &mut Run) {
    run.sides.tally.start("mixed files");
    for _ in 0..run.amount_of(500, 5) {
        let count = run.random.index(40);
        let mut file = file_of(&run.random_lines(count));
        run.sides.file(&file);
        for _ in 0..3 {
            file = damaged(&file, &mut run.random);
            run.sides.file(&file);
        }
    }
    for count in [MOST_LINES, MOST_LINES + 1] {
        let count = run.amount_of(count, 10);
        let lines = run.random_lines(count);
        ended_and_unended(run, &file_of(&lines));
    }
}
