//! Lines that are cut short, or have bytes changed, put in, taken out or swapped.

use super::Run;
use crate::damage::{damaged, with_byte, with_inserted, with_swapped, without, TELLING_BYTES};
use crate::inputs::{random, Sample};

pub fn compare(run: &mut Run, samples: &[Sample]) {
    valid_lines(run);
    prefixes(run, samples);
    bytes_replaced(run, samples);
    bytes_put_in(run, samples);
    bytes_taken_out(run, samples);
    bytes_swapped(run, samples);
    damaged_often(run, samples);
}

fn valid_lines(run: &mut Run) {
    run.sides.tally.start("valid lines");
    for _ in 0..run.amount_of(500, 5) {
        for layout in 1..=4 {
            let sample = random(layout, &mut run.random);
            run.sides.line(&sample.line);
        }
    }
}

fn prefixes(run: &mut Run, samples: &[Sample]) {
    run.sides.tally.start("prefixes");
    for sample in samples {
        for length in run.indices(sample.line.len()) {
            run.sides.line(&sample.line[..length]);
        }
    }
}

fn bytes_replaced(run: &mut Run, samples: &[Sample]) {
    run.sides.tally.start("bytes replaced");
    for sample in samples {
        for index in run.indices(sample.line.len()) {
            for byte in TELLING_BYTES {
                run.sides.line(&with_byte(&sample.line, index, byte));
            }
        }
    }
}

fn bytes_put_in(run: &mut Run, samples: &[Sample]) {
    run.sides.tally.start("bytes put in");
    for sample in samples {
        for index in run.indices(sample.line.len() + 1) {
            let byte = run.random.pick(&TELLING_BYTES);
            for byte in [b' ', b'0', byte] {
                run.sides.line(&with_inserted(&sample.line, index, byte));
            }
        }
    }
}

fn bytes_taken_out(run: &mut Run, samples: &[Sample]) {
    run.sides.tally.start("bytes taken out");
    for sample in samples {
        for index in run.indices(sample.line.len()) {
            run.sides.line(&without(&sample.line, index));
        }
    }
}

fn bytes_swapped(run: &mut Run, samples: &[Sample]) {
    run.sides.tally.start("bytes swapped");
    for sample in samples {
        for index in run.indices(sample.line.len() - 1) {
            let other = run.random.index(sample.line.len());
            for other in [index + 1, other] {
                run.sides.line(&with_swapped(&sample.line, index, other));
            }
        }
    }
}

/// Several faults in one line tell which of them comes first.
fn damaged_often(run: &mut Run, samples: &[Sample]) {
    run.sides.tally.start("lines damaged often");
    for _ in 0..run.amount_of(2_000, 3) {
        for sample in samples {
            let mut line = sample.line.clone();
            for _ in 0..run.random.within(2, 5) {
                line = damaged(&line, &mut run.random);
            }
            run.sides.line(&line);
        }
    }
}
