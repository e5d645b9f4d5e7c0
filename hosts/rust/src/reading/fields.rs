//! The rule of each kind of field.

use super::bytes::{all_blank, is_blank, is_text, number};
use super::days::is_day;
use super::layouts::{Field, AMOUNT_WIDTH, BLOCK_LINE_WIDTH, COUNT_WIDTH, DAY_WIDTH, RECORD_WIDTH};
use super::line::Record;
use super::refusals::{BLANK_TEXT, FORBIDDEN_BYTE, NO_DAY, OUT_OF_BOUNDS, ZERO_AMOUNT};
use super::walk::{Part, Walk};
use crate::Refusal;

type Passed = Result<(), Refusal>;

/// Reads the next field; its amount or its currency is put in the record.
pub fn read_field(field: Field, walk: &mut Walk, record: &mut Record) -> Passed {
    match field {
        Field::Record(_) => record_name(walk),
        Field::Range(low, high) => count(walk, |number| low <= number && number <= high).map(drop),
        Field::Number(width) => digits(walk, width).map(drop),
        Field::Zeros(width) => walk.take_of(width, |byte| byte == b'0').map(drop),
        Field::Text(width) => walk.take_of(width, is_text).map(drop),
        Field::FilledText(width) => filled_text(walk, width),
        Field::Blanks(width) => walk.take_of(width, is_blank).map(drop),
        Field::Day => day(walk, is_day),
        Field::DayOrZero => day(walk, |number| number == 0 || is_day(number)),
        Field::Amount => amount(walk).map(|amount| record.amount = amount),
        Field::Currency => currency(walk).map(|currency| record.currency = currency),
        Field::OneOf(four) => walk.take_of(1, |byte| four.contains(&byte)).map(drop),
        Field::Lines(low, high) => block(walk, |lines| low <= lines && lines <= high).map(drop),
        Field::AllOrNoLines(all) => filled_block(walk, all),
    }
}

/// The digits have chosen the layout, so that only `UBT` can be wrong.
fn record_name(walk: &mut Walk) -> Passed {
    let part = walk.take(RECORD_WIDTH)?;
    match part.bytes.iter().zip(b"UBT").position(|(is, be)| is != be) {
        Some(index) => walk.refuse(FORBIDDEN_BYTE, part.place + index),
        None => Ok(()),
    }
}

fn digits<'a>(walk: &mut Walk<'a>, width: usize) -> Result<Part<'a>, Refusal> {
    walk.take_of(width, |byte| byte.is_ascii_digit())
}

fn count(walk: &mut Walk, within: impl Fn(usize) -> bool) -> Result<usize, Refusal> {
    let part = digits(walk, COUNT_WIDTH)?;
    let count = number(part.bytes) as usize;
    if within(count) {
        Ok(count)
    } else {
        walk.refuse(OUT_OF_BOUNDS, part.place)
    }
}

fn filled_text(walk: &mut Walk, width: usize) -> Passed {
    let part = walk.take_of(width, is_text)?;
    if all_blank(part.bytes) {
        return walk.refuse(BLANK_TEXT, part.place);
    }
    Ok(())
}

fn day(walk: &mut Walk, allowed: impl Fn(u64) -> bool) -> Passed {
    let part = digits(walk, DAY_WIDTH)?;
    if allowed(number(part.bytes)) {
        Ok(())
    } else {
        walk.refuse(NO_DAY, part.place)
    }
}

fn amount(walk: &mut Walk) -> Result<u64, Refusal> {
    let part = digits(walk, AMOUNT_WIDTH)?;
    match number(part.bytes) {
        0 => walk.refuse(ZERO_AMOUNT, part.place),
        amount => Ok(amount),
    }
}

fn currency(walk: &mut Walk) -> Result<[u8; 3], Refusal> {
    let part = walk.take_of(3, |byte| byte.is_ascii_uppercase())?;
    Ok([part.bytes[0], part.bytes[1], part.bytes[2]])
}

/// A block's lines, all of them as one part: their bytes are checked together.
fn block<'a>(walk: &mut Walk<'a>, within: impl Fn(usize) -> bool) -> Result<Part<'a>, Refusal> {
    let lines = count(walk, within)?;
    walk.take_of(lines * BLOCK_LINE_WIDTH, is_text)
}

fn filled_block(walk: &mut Walk, all: usize) -> Passed {
    let block = block(walk, |lines| lines == 0 || lines == all)?;
    let mut lines = block.bytes.chunks_exact(BLOCK_LINE_WIDTH);
    match lines.position(all_blank) {
        Some(index) => walk.refuse(BLANK_TEXT, block.place + index * BLOCK_LINE_WIDTH),
        None => Ok(()),
    }
}
