//! Times of calls, measured in turn.

use std::hint::black_box;
use std::time::Instant;

/// A piece of work on a file.
pub type Work = fn(&[u8]) -> u64;

/// What is timed: a piece of work on a file, called so often in one measurement.
pub struct Trial<'a> {
    pub work: Work,
    pub file: &'a [u8],
    pub calls: u32,
}

/// The times of one trial's calls, in seconds, from the shortest to the longest.
pub struct Times {
    sorted: Vec<f64>,
}

impl Times {
    pub fn least(&self) -> f64 {
        self.sorted[0]
    }

    pub fn median(&self) -> f64 {
        self.percentile(50)
    }

    pub fn percentile(&self, percent: usize) -> f64 {
        self.sorted[(self.sorted.len() - 1) * percent / 100]
    }
}

/// Measures each trial once in each round, so that a slow moment of the machine falls on all.
pub fn measured_in_turn(trials: &[Trial], rounds: usize) -> Vec<Times> {
    let mut measured = vec![Vec::with_capacity(rounds); trials.len()];
    for _ in 0..rounds {
        for (times, trial) in measured.iter_mut().zip(trials) {
            times.push(time_of_a_call(trial));
        }
    }
    measured.into_iter().map(sorted).collect()
}

fn time_of_a_call(trial: &Trial) -> f64 {
    let call = || black_box((trial.work)(black_box(trial.file)));
    // The first call is not timed: it brings the file nearer, for whoever comes first.
    call();
    let start = Instant::now();
    for _ in 0..trial.calls {
        call();
    }
    start.elapsed().as_secs_f64() / f64::from(trial.calls)
}

fn sorted(mut times: Vec<f64>) -> Times {
    times.sort_by(f64::total_cmp);
    Times { sorted: times }
}

#[cfg(test)]
mod tests {
    use super::*;

    #[test]
    fn times_are_put_in_order() {
        let times = sorted(vec![3.0, 1.0, 2.0, 5.0, 4.0]);
        assert_eq!((times.least(), times.median()), (1.0, 3.0));
        assert_eq!(times.percentile(90), 4.0);
    }
}
