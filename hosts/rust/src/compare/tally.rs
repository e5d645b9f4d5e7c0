//! What was compared, and what differed.

use crate::Refusal;
use std::{collections::BTreeMap, fmt};

/// Every refusal that judging, summing and reporting can give.
const ALL_REFUSALS: [u8; 12] = [11, 12, 13, 14, 15, 16, 17, 18, 22, 23, 39, 45];
const MOST_SHOWN: u64 = 10;
/// The most bytes of an input that are shown from each of its ends.
const SHOWN_BYTES: usize = 2_500;

#[derive(Default)]
struct Group {
    name: &'static str,
    comparisons: u64,
    differ: u64,
}

#[derive(Default)]
pub struct Tally {
    groups: Vec<Group>,
    accepted: u64,
    refused: BTreeMap<u8, u64>,
}

impl Tally {
    /// Later comparisons count in this group.
    pub fn start(&mut self, name: &'static str) {
        self.groups.push(Group {
            name,
            ..Group::default()
        });
    }

    /// Counts one comparison, and shows it if it is one of the first that differ.
    pub fn note<A: PartialEq + fmt::Debug>(
        &mut self,
        call: fmt::Arguments,
        input: &[u8],
        library: A,
        reading: A,
    ) {
        let differ = self.differ();
        let group = self.groups.last_mut().expect("a group was started");
        group.comparisons += 1;
        if library == reading {
            return;
        }
        group.differ += 1;
        if differ < MOST_SHOWN {
            println!("DIFFERENCE in {}: {call}", group.name);
            println!("  library {library:?}\n  reading {reading:?}");
            println!("  input of {} bytes: {}", input.len(), shown(input));
        }
    }

    /// Counts what the reading answered.
    pub fn answered<T>(&mut self, answer: &Result<T, Refusal>) {
        match answer {
            Ok(_) => self.accepted += 1,
            Err(refusal) => *self.refused.entry(refusal.number).or_default() += 1,
        }
    }

    pub fn comparisons(&self) -> u64 {
        self.groups.iter().map(|group| group.comparisons).sum()
    }

    pub fn differ(&self) -> u64 {
        self.groups.iter().map(|group| group.differ).sum()
    }

    /// The refusals that never came.
    pub fn missing(&self) -> Vec<u8> {
        let came = |number: &u8| self.refused.contains_key(number);
        ALL_REFUSALS.into_iter().filter(|n| !came(n)).collect()
    }
}

impl fmt::Display for Tally {
    fn fmt(&self, out: &mut fmt::Formatter<'_>) -> fmt::Result {
        for group in &self.groups {
            let (count, differ) = (group.comparisons, group.differ);
            writeln!(
                out,
                "{:<26} {count:>9} comparisons, {differ} differ",
                group.name
            )?;
        }
        writeln!(out, "accepted    {:>9} times", self.accepted)?;
        for number in ALL_REFUSALS {
            let times = self.refused.get(&number).unwrap_or(&0);
            writeln!(out, "refused {number:>3} {times:>9} times")?;
        }
        let (all, differ) = (self.comparisons(), self.differ());
        writeln!(out, "{all} comparisons, {differ} differ")
    }
}

fn shown(input: &[u8]) -> String {
    if input.len() <= 2 * SHOWN_BYTES {
        return input.escape_ascii().to_string();
    }
    let (front, back) = (&input[..SHOWN_BYTES], &input[input.len() - SHOWN_BYTES..]);
    format!("{} ... {}", front.escape_ascii(), back.escape_ascii())
}
