//! Totals in many currencies, and in what is no currency.

use super::Run;
use crate::damage::damaged;
use crate::inputs::{file_of, largest, CURRENCIES};
use crate::reading::MOST_LINES;

/// Currencies that seldom occur, and much that is no currency.
const OTHERS: &[u8] = b"AAA,ZZZ,,D,DK,DKKK,DKKDKK,dkk,Dkk,DKk,DK ,D1K,@KK,DK[,[[[,\
    \x00\x00\x00,\xff\xff\xff,DK\n";

pub fn compare(run: &mut Run) {
    totals(run);
    largest_totals(run);
}

fn totals(run: &mut Run) {
    run.sides.tally.start("totals");
    let others = OTHERS.split(|&byte| byte == b',');
    for _ in 0..run.amount_of(200, 3) {
        let count = run.random.index(60);
        let good = file_of(&run.random_lines(count));
        let bad = damaged(&good, &mut run.random);
        for file in [&good[..], &bad, b""] {
            for currency in CURRENCIES.iter().map(|letters| &letters[..]) {
                run.sides.total(file, currency);
            }
            for currency in others.clone() {
                run.sides.total(file, currency);
            }
        }
    }
}

/// The largest amounts, in as many lines as a file can have and in one more.
fn largest_totals(run: &mut Run) {
    run.sides.tally.start("largest totals");
    let line = largest(3).line;
    for count in [1, 2, MOST_LINES - 1, MOST_LINES, MOST_LINES + 1] {
        let file = file_of(&vec![&line[..]; count]);
        run.sides.total(&file, b"ZZZ");
        run.sides.total(&file, b"DKK");
    }
}
