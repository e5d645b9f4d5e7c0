//! Differential tests: the library against the independent reading.
//!
//! Every answer is compared in full: what was accepted or refused, the value or the number,
//! the layer and the place, and the whole of the memory that a report is written to.

mod blocks;
mod files;
mod lines;
mod noise;
mod reports;
mod sides;
mod tally;
mod totals;
mod values;

use crate::inputs::{largest, random, smallest, Sample};
use crate::random::Random;
use crate::reading::layouts::LAYOUTS;
use sides::Sides;
pub use tally::Tally;

/// How much is compared.
#[derive(Clone, Copy, PartialEq, Eq)]
pub enum Extent {
    Full,
    /// A few thousand comparisons, for runs under slow tools.
    Small,
}

/// One run of comparisons: both sides, what chance decides, and how far to go.
struct Run {
    sides: Sides,
    random: Random,
    extent: Extent,
}

/// Compares the two sides on inputs of every group.
pub fn run(seed: u64, extent: Extent) -> Tally {
    let mut run = Run {
        sides: Sides::default(),
        random: Random::seeded(seed),
        extent,
    };
    let samples = run.samples();
    lines::compare(&mut run, &samples);
    values::compare(&mut run, &samples);
    blocks::compare(&mut run, &samples);
    noise::compare(&mut run, &samples);
    files::compare(&mut run, &samples);
    totals::compare(&mut run);
    reports::compare(&mut run);
    run.sides.tally
}

impl Run {
    /// The smallest, the largest and some random lines of each layout.
    fn samples(&mut self) -> Vec<Sample> {
        let mut samples = Vec::new();
        for layout in 1..=LAYOUTS.len() {
            samples.extend([smallest(layout), largest(layout)]);
            for _ in 0..self.amount_of(3, 0) {
                samples.push(random(layout, &mut self.random));
            }
        }
        samples
    }

    fn random_line(&mut self) -> Vec<u8> {
        let layout = self.random.index(LAYOUTS.len()) + 1;
        random(layout, &mut self.random).line
    }

    fn random_lines(&mut self, count: usize) -> Vec<Vec<u8>> {
        (0..count).map(|_| self.random_line()).collect()
    }

    fn amount_of(&self, full: usize, small: usize) -> usize {
        match self.extent {
            Extent::Full => full,
            Extent::Small => small,
        }
    }

    /// Whether to go on with one of many like inputs: always, but in a small run now and then.
    fn wants_one_more(&mut self) -> bool {
        self.extent == Extent::Full || self.random.one_in(100)
    }

    /// Compares one of many like lines, if it is wanted.
    fn line_of_many(&mut self, line: &[u8]) {
        if self.wants_one_more() {
            self.sides.line(line);
        }
    }

    /// Every index below the length, or in a small run two of them.
    fn indices(&mut self, length: usize) -> Vec<usize> {
        match self.extent {
            Extent::Full => (0..length).collect(),
            Extent::Small => (0..2).map(|_| self.random.index(length)).collect(),
        }
    }
}

#[cfg(test)]
mod tests {
    use super::*;

    #[test]
    fn the_two_sides_agree_in_a_small_run() {
        let tally = run(1, Extent::Small);
        assert!(tally.comparisons() > 1_000);
        assert_eq!(tally.differ(), 0);
    }
}
