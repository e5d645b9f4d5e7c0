//! Judging and summing a whole file.

use super::bytes::is_currency;
use super::cut::Lines;
use super::line::{read_line, Record};
use super::refusals::{in_file, NOT_A_CURRENCY, TOO_MANY_LINES, UNENDED};
use crate::Refusal;

/// The most lines that a file has.
pub const MOST_LINES: usize = 1_200;

const TOO_MANY: Refusal = in_file(TOO_MANY_LINES, MOST_LINES + 1);

/// Judges a whole file: the number of its records.
pub fn judge_file(bytes: &[u8]) -> Result<usize, Refusal> {
    read_file(bytes, |_| ())
}

/// The sum, in hundredths, of a file's amounts in one currency.
pub fn total(bytes: &[u8], currency: &[u8]) -> Result<u64, Refusal> {
    if !is_currency(currency) {
        return Err(NOT_A_CURRENCY);
    }
    let mut total = 0;
    read_file(bytes, |record| {
        if record.currency == currency {
            total += record.amount;
        }
    })?;
    Ok(total)
}

/// Hands over each record up to the first fault, and gives the number of them or that fault.
fn read_file(bytes: &[u8], mut each: impl FnMut(&Record)) -> Result<usize, Refusal> {
    let mut lines = Lines::of(bytes);
    if lines.leave_a_rest() {
        return Err(in_file(UNENDED, lines.count() + 1));
    }
    let mut number = 0;
    while let Some(line) = lines.next() {
        number += 1;
        if number > MOST_LINES {
            return Err(TOO_MANY);
        }
        match read_line(line) {
            Ok(record) => each(&record),
            // Too many lines come before any line's own fault.
            Err(_) if number + lines.count() > MOST_LINES => return Err(TOO_MANY),
            Err(fault) => return Err(fault.of_line(number)),
        }
    }
    Ok(number)
}

#[cfg(test)]
mod tests {
    use super::*;
    use crate::inputs::{file_of, smallest};
    use crate::reading::refusals::in_line;

    fn advice(amount: &[u8; 15], currency: &[u8; 3]) -> Vec<u8> {
        let mut line = smallest(3).line;
        line[45..60].copy_from_slice(amount);
        line[60..63].copy_from_slice(currency);
        line
    }

    #[test]
    fn no_bytes_are_a_file_of_no_records() {
        assert_eq!(judge_file(b""), Ok(0));
        assert_eq!(total(b"", b"DKK"), Ok(0));
    }

    #[test]
    fn a_total_is_of_one_currency() {
        let file = file_of(&[
            advice(b"000000000017525", b"DKK"),
            advice(b"000000000020000", b"EUR"),
            advice(b"000000000000001", b"DKK"),
        ]);
        assert_eq!(judge_file(&file), Ok(3));
        assert_eq!(total(&file, b"DKK"), Ok(17_526));
        assert_eq!(total(&file, b"EUR"), Ok(20_000));
        assert_eq!(total(&file, b"USD"), Ok(0));
    }

    #[test]
    fn the_largest_total_fits() {
        let file = file_of(&vec![advice(b"999999999999999", b"SEK"); 1_200]);
        assert_eq!(judge_file(&file), Ok(1_200));
        assert_eq!(total(&file, b"SEK"), Ok(1_199_999_999_999_998_800));
    }

    #[test]
    fn a_currency_is_looked_at_before_the_file() {
        let refusal = total(b"UBT", b"Dkk").unwrap_err();
        assert_eq!(refusal.to_string(), "39 layer 3 line 0 field 0 byte 0");
    }

    #[test]
    fn an_unended_rest_comes_first() {
        let many = [&b"\r\n".repeat(1_201)[..], b"x"].concat();
        assert_eq!(judge_file(&many), Err(in_file(22, 1_202)));
        assert_eq!(judge_file(b"\n"), Err(in_file(22, 1)));
        assert_eq!(judge_file(b"x\r\n\r"), Err(in_file(22, 2)));
        assert_eq!(total(b"x\r\ny", b"DKK"), Err(in_file(22, 2)));
    }

    #[test]
    fn too_many_lines_come_before_the_faults_of_lines() {
        let good = smallest(3).line;
        assert_eq!(
            judge_file(&file_of(&vec![good.clone(); 1_201])),
            Err(in_file(23, 1_201))
        );
        assert_eq!(judge_file(&b"\r\n".repeat(1_201)), Err(in_file(23, 1_201)));
        let last_bad = [file_of(&vec![good; 1_200]), b"UBT\r\n".to_vec()].concat();
        assert_eq!(judge_file(&last_bad), Err(in_file(23, 1_201)));
    }

    #[test]
    fn the_first_bad_line_is_named() {
        let good = smallest(3).line;
        let file = file_of(&[good.clone(), good, b"UBT".to_vec(), Vec::new()]);
        let fault = in_line(11, 1, 4).of_line(3);
        assert_eq!(judge_file(&file), Err(fault));
        assert_eq!(total(&file, b"DKK"), Err(fault));
        let refusal = judge_file(&b"\r\n".repeat(1_200)).unwrap_err();
        assert_eq!(refusal.to_string(), "11 layer 2 line 1 field 1 byte 1");
    }
}
