//! Lines whose blocks have telling counts, and telling lines.

use super::Run;
use crate::inputs::Sample;
use crate::reading::layouts::{Field, BLOCK_LINE_WIDTH};

pub fn compare(run: &mut Run, samples: &[Sample]) {
    counts(run, samples);
    counts_with_their_lines(run, samples);
    blank_lines(run, samples);
}

fn is_block(field: &Field) -> bool {
    matches!(field, Field::Lines(..) | Field::AllOrNoLines(_))
}

/// Every count, over lines that stay as they are.
fn counts(run: &mut Run, samples: &[Sample]) {
    run.sides.tally.start("counts");
    for sample in samples {
        for field in sample.fields(is_block) {
            let lines = &sample.line[sample.parts[field].clone()][2..];
            for count in 0..100 {
                run.line_of_many(&sample.with(field, &block(count, lines)));
            }
        }
    }
}

/// Counts that agree with their lines, up to more lines than any block has.
fn counts_with_their_lines(run: &mut Run, samples: &[Sample]) {
    run.sides.tally.start("counts with their lines");
    for sample in samples {
        for field in sample.fields(is_block) {
            for count in 0..=43 {
                let lines = vec![b'x'; count * BLOCK_LINE_WIDTH];
                run.line_of_many(&sample.with(field, &block(count, &lines)));
            }
        }
    }
}

/// Blank lines in a block, alone, with a forbidden byte, and cut off at the same place.
fn blank_lines(run: &mut Run, samples: &[Sample]) {
    run.sides.tally.start("blank lines in a block");
    for sample in samples {
        for field in sample.fields(is_block) {
            for blanks in 0..8 {
                let line = sample.with(field, &block(3, &three_lines(blanks)));
                run.line_of_many(&line);
                for index in [2, 36, 37, 71, 72, 106] {
                    let place = sample.parts[field].start + index;
                    let mut damaged = line.clone();
                    damaged[place] = 127;
                    run.line_of_many(&damaged);
                    run.line_of_many(&damaged[..place]);
                }
            }
        }
    }
}

fn block(count: usize, lines: &[u8]) -> Vec<u8> {
    [format!("{count:02}").as_bytes(), lines].concat()
}

/// Three lines of a block; the bits tell which of them are blank.
fn three_lines(blanks: u8) -> Vec<u8> {
    let mut lines = vec![b' '; 3 * BLOCK_LINE_WIDTH];
    for (index, line) in lines.chunks_exact_mut(BLOCK_LINE_WIDTH).enumerate() {
        if blanks >> index & 1 == 0 {
            line[BLOCK_LINE_WIDTH - 1] = b'!';
        }
    }
    lines
}
