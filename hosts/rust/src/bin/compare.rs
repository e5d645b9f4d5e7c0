//! Compares the library with the independent reading, on many inputs.

use edi4::compare::{run, Extent};
use std::{env, process::ExitCode};

const USUAL_SEED: u64 = 1;

fn main() -> ExitCode {
    let Some((seed, extent)) = arguments() else {
        eprintln!("usage: compare [SEED] [small]");
        return ExitCode::from(2);
    };
    println!("seed {seed}");
    let tally = run(seed, extent);
    print!("{tally}");
    let telling = extent == Extent::Small || tally.missing().is_empty();
    if telling && tally.differ() == 0 {
        ExitCode::SUCCESS
    } else {
        ExitCode::FAILURE
    }
}

fn arguments() -> Option<(u64, Extent)> {
    let (mut seed, mut extent) = (USUAL_SEED, Extent::Full);
    for argument in env::args().skip(1) {
        match argument.as_str() {
            "small" => extent = Extent::Small,
            number => seed = number.parse().ok()?,
        }
    }
    Some((seed, extent))
}
