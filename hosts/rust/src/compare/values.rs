//! Lines with telling values in one field.

use super::Run;
use crate::damage::with_byte;
use crate::inputs::{smallest, Sample};
use crate::reading::layouts::{Field, LAYOUTS};

const NAMES: &[u8] = b"UBT04500,UBT04601,UBT04602,UBT05401,UBT04501,UBT00000,ubt04500,XBT04601,\
    UXT04602,UBX05401,UB\rT0450,04500UBT,UBT0450\xff,UBT04\r\n0";
const AMOUNTS: &[u8] = b"000000000000000,000000000000001,000000000000010,100000000000000,\
    999999999999998,999999999999999,00000000000000 ,-00000000000001,00000000000000:";
const CURRENCIES: &[u8] = b"AAA,ZZZ,DKK,dkk,DK ,   ,D1K,@AZ,AZ[,A[Z,\x00\xff\x80";
const YEARS: [u64; 13] = [
    0, 1, 4, 100, 400, 1900, 2000, 2023, 2024, 2100, 9996, 9999, 2400,
];

pub fn compare(run: &mut Run, samples: &[Sample]) {
    record_names(run, samples);
    amounts_and_currencies(run, samples);
    days(run);
    leap_days(run);
    ranges(run, samples);
    every_byte(run);
    texts(run, samples);
}

/// Every such value in every such field of every sample.
fn values_in<'v>(
    run: &mut Run,
    samples: &[Sample],
    of_kind: impl Fn(&Field) -> bool,
    values: impl Iterator<Item = &'v [u8]> + Clone,
) {
    for sample in samples {
        for field in sample.fields(&of_kind) {
            for value in values.clone() {
                run.line_of_many(&sample.with(field, value));
            }
        }
    }
}

fn smallest_samples() -> Vec<Sample> {
    (1..=LAYOUTS.len()).map(smallest).collect()
}

fn listed(values: &[u8]) -> impl Iterator<Item = &[u8]> + Clone {
    values.split(|&byte| byte == b',')
}

fn record_names(run: &mut Run, samples: &[Sample]) {
    run.sides.tally.start("record names");
    let record = |field: &Field| matches!(field, Field::Record(_));
    values_in(run, samples, record, listed(NAMES));
}

fn amounts_and_currencies(run: &mut Run, samples: &[Sample]) {
    run.sides.tally.start("amounts and currencies");
    let amount = |field: &Field| *field == Field::Amount;
    values_in(run, samples, amount, listed(AMOUNTS));
    let currency = |field: &Field| *field == Field::Currency;
    values_in(run, samples, currency, listed(CURRENCIES));
}

/// All days of telling years, and what is next to days: month 0 and 13, days 0, 29 to 33 and 99.
fn days(run: &mut Run) {
    run.sides.tally.start("days");
    let mut days = Vec::new();
    for year in YEARS {
        for month in 0..=13 {
            for day in (0..=33).chain([99]) {
                days.push(format!("{year:04}{month:02}{day:02}"));
            }
        }
    }
    let days = days.iter().map(String::as_bytes);
    values_in(run, &smallest_samples(), is_day, days);
}

/// February 29 of every year, in the advices without texts, which have both kinds of day.
fn leap_days(run: &mut Run) {
    run.sides.tally.start("leap days");
    let days: Vec<String> = (0..=9999).map(|year| format!("{year:04}0229")).collect();
    values_in(
        run,
        &[smallest(3)],
        is_day,
        days.iter().map(String::as_bytes),
    );
}

fn is_day(field: &Field) -> bool {
    matches!(field, Field::Day | Field::DayOrZero)
}

fn ranges(run: &mut Run, samples: &[Sample]) {
    run.sides.tally.start("ranges");
    let numbers: Vec<String> = (0..100).map(|number| format!("{number:02}")).collect();
    let range = |field: &Field| matches!(field, Field::Range(..));
    values_in(run, samples, range, numbers.iter().map(String::as_bytes));
}

/// Every byte, first and last in every field.
fn every_byte(run: &mut Run) {
    run.sides.tally.start("every byte");
    for sample in smallest_samples() {
        for part in &sample.parts {
            for index in [part.start, part.end - 1] {
                for byte in 0..=255 {
                    run.line_of_many(&with_byte(&sample.line, index, byte));
                }
            }
        }
    }
}

/// Texts that are blank, or have one byte that is no blank, first or last.
fn texts(run: &mut Run, samples: &[Sample]) {
    run.sides.tally.start("texts");
    for sample in samples {
        for field in sample.fields(|field| matches!(field, Field::Text(_) | Field::FilledText(_))) {
            let blank = vec![b' '; sample.parts[field].len()];
            run.line_of_many(&sample.with(field, &blank));
            for byte in [b'!', 126, 127, 128, 159, 160, 255, b'\r', b'\n'] {
                for index in [0, blank.len() - 1] {
                    let mut text = blank.clone();
                    text[index] = byte;
                    run.line_of_many(&sample.with(field, &text));
                }
            }
        }
    }
}
