//! The Gregorian calendar, year 1 to year 9999.

/// Whether YYYYMMDD, a number of at most eight digits, is a day.
pub fn is_day(number: u64) -> bool {
    let (year, month, day) = (number / 10_000, number / 100 % 100, number % 100);
    year >= 1 && (1..=days_in(year, month)).contains(&day)
}

/// 0 for what is no month, so that no day fits it.
fn days_in(year: u64, month: u64) -> u64 {
    match month {
        1 | 3 | 5 | 7 | 8 | 10 | 12 => 31,
        4 | 6 | 9 | 11 => 30,
        2 if is_leap(year) => 29,
        2 => 28,
        _ => 0,
    }
}

fn is_leap(year: u64) -> bool {
    year.is_multiple_of(4) && (!year.is_multiple_of(100) || year.is_multiple_of(400))
}

#[cfg(test)]
mod tests {
    use super::*;

    #[test]
    fn days_of_the_calendar() {
        for number in [
            10101, 20240229, 20000229, 19000228, 40229, 99991231, 20230430,
        ] {
            assert!(is_day(number), "{number}");
        }
    }

    #[test]
    fn no_days_of_the_calendar() {
        for number in [
            0, 101, 1231, 10100, 10001, 11301, 19000229, 20230229, 21000229, 20240230, 20230431,
            20230631, 20230931, 20231131, 20231232, 20230000, 99999999,
        ] {
            assert!(!is_day(number), "{number}");
        }
    }
}
