//! Times the library, the independent reading and plain scans of memory on the same files.

use edi4::inputs::{file_of, largest, smallest, Sample};
use edi4::random::Random;
use edi4::timing::{measured_in_turn, Times, Trial, Work};
use edi4::{library, reading};

const ROUNDS: usize = 41;
const LINES: [usize; 3] = [12, 120, 1_200];
const MOST_LINES: usize = LINES[2];

/// The fields of every layout that have its amount and its currency.
const AMOUNT: usize = 3;
const CURRENCY: usize = 4;

/// What is timed, and at which index the reading's work stands that it is held against.
const WORKS: [(&str, Work, usize); 6] = [
    ("library judge_file", library_judges, 2),
    ("library total", library_sums, 3),
    ("reading judge_file", reading_judges, 2),
    ("reading total", reading_sums, 3),
    ("scan for line feeds", line_feeds, 2),
    ("sum of bytes", sum_of_bytes, 2),
];
const SCAN: usize = 4;
const SUM: usize = 5;

const HEADING: &str =
    "  work                  median us    least..90th centile   GB/s  to reading  to scan   to sum";

/// Files of one kind of line, one for each number of lines.
struct Kind {
    name: &'static str,
    files: Vec<Vec<u8>>,
}

fn main() {
    let kinds = [
        kind("largest payments", &largest(1)),
        kind("smallest payments", &smallest(1)),
        kind("advices without texts", &smallest(3)),
    ];
    kinds.iter().for_each(check);
    let trials: Vec<Trial> = kinds.iter().flat_map(trials).collect();
    let times = measured_in_turn(&trials, ROUNDS);
    for (kind, times) in kinds.iter().zip(times.chunks(LINES.len() * WORKS.len())) {
        let tables: Vec<&[Times]> = times.chunks(WORKS.len()).collect();
        for (file, times) in kind.files.iter().zip(&tables) {
            show_file(kind.name, file, times);
        }
        show_growth(kind.name, &tables);
    }
}

fn library_judges(file: &[u8]) -> u64 {
    library::judge_file(file).expect("the file is valid") as u64
}

fn library_sums(file: &[u8]) -> u64 {
    library::total(file, b"DKK").expect("the file is valid")
}

fn reading_judges(file: &[u8]) -> u64 {
    reading::judge_file(file).expect("the file is valid") as u64
}

fn reading_sums(file: &[u8]) -> u64 {
    reading::total(file, b"DKK").expect("the file is valid")
}

fn line_feeds(file: &[u8]) -> u64 {
    file.iter().filter(|&&byte| byte == b'\n').count() as u64
}

fn sum_of_bytes(file: &[u8]) -> u64 {
    file.iter().map(|&byte| u64::from(byte)).sum()
}

fn kind(name: &'static str, sample: &Sample) -> Kind {
    let mut random = Random::seeded(1);
    let mut line = || {
        let mut line = sample.line.clone();
        let amount = format!("{:015}", random.within(1, 99_999_999));
        line[sample.parts[AMOUNT].clone()].copy_from_slice(amount.as_bytes());
        line[sample.parts[CURRENCY].clone()].copy_from_slice(b"DKK");
        line
    };
    let lines: Vec<Vec<u8>> = (0..MOST_LINES).map(|_| line()).collect();
    let files = LINES.map(|count| file_of(&lines[..count])).to_vec();
    Kind { name, files }
}

/// What is timed must be right: the library and the reading agree on every file.
fn check(kind: &Kind) {
    for (file, lines) in kind.files.iter().zip(LINES) {
        assert_eq!(library::judge_file(file), Ok(lines));
        assert_eq!(reading::judge_file(file), Ok(lines));
        assert_eq!(library::total(file, b"DKK"), reading::total(file, b"DKK"));
    }
}

/// Every work on every file; the smaller a file, the more often.
fn trials(kind: &Kind) -> Vec<Trial<'_>> {
    let mut trials = Vec::new();
    for (file, lines) in kind.files.iter().zip(LINES) {
        let calls = (MOST_LINES / lines) as u32;
        trials.extend(WORKS.map(|(_, work, _)| Trial { work, file, calls }));
    }
    trials
}

fn show_file(name: &str, file: &[u8], times: &[Times]) {
    println!("{name}: {} lines, {} bytes", line_feeds(file), file.len());
    println!("{HEADING}");
    for (index, (work, _, held_against)) in WORKS.iter().enumerate() {
        let (all, time) = (&times[index], times[index].median());
        println!(
            "  {work:<20} {:>10.2} {:>11.2} ..{:>10.2} {:>6.2} {:>11.2} {:>8.2} {:>8.2}",
            time * 1e6,
            all.least() * 1e6,
            all.percentile(90) * 1e6,
            file.len() as f64 / time / 1e9,
            time / times[*held_against].median(),
            time / times[SCAN].median(),
            time / times[SUM].median(),
        );
    }
    println!();
}

/// The time of a line in files of more and more lines, and how it grows.
fn show_growth(name: &str, tables: &[&[Times]]) {
    println!("{name}: nanoseconds a line");
    println!("  work                  12 lines    120 lines   1,200 lines   1,200 to 12");
    for (index, (work, ..)) in WORKS.iter().enumerate() {
        let of_a_line = |at: usize| tables[at][index].median() * 1e9 / LINES[at] as f64;
        let [few, more, most] = [0, 1, 2].map(of_a_line);
        println!(
            "  {work:<20} {few:>9.2} {more:>12.2} {most:>13.2} {:>13.2}",
            most / few
        );
    }
    println!();
}
