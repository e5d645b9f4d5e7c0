//! Which bytes are which.

pub const BLANK: u8 = b' ';

pub fn is_text(byte: u8) -> bool {
    // Taking 32 away brings the bytes 32 to 126 to the front; 127 to 159 are no text.
    (byte.wrapping_sub(BLANK) < 95) | (byte >= 160)
}

pub fn is_blank(byte: u8) -> bool {
    byte == BLANK
}

pub fn all_blank(text: &[u8]) -> bool {
    text.iter().all(|&byte| is_blank(byte))
}

pub fn is_currency(bytes: &[u8]) -> bool {
    bytes.len() == 3 && bytes.iter().all(u8::is_ascii_uppercase)
}

/// The number that digits write.
pub fn number(digits: &[u8]) -> u64 {
    digits
        .iter()
        .fold(0, |number, digit| number * 10 + u64::from(digit - b'0'))
}

/// The index of the first byte that is not allowed.
pub fn first_forbidden(bytes: &[u8], allowed: impl Fn(u8) -> bool) -> Option<usize> {
    // Looking at all bytes without leaving early lets the compiler take many at a time.
    if bytes.iter().fold(true, |all, &byte| all & allowed(byte)) {
        return None;
    }
    bytes.iter().position(|&byte| !allowed(byte))
}

#[cfg(test)]
mod tests {
    use super::*;

    #[test]
    fn text_bytes_are_32_to_126_and_160_to_255() {
        for byte in 0..=255 {
            let expected = (32..=126).contains(&byte) || (160..=255).contains(&byte);
            assert_eq!(is_text(byte), expected, "byte {byte}");
        }
    }

    #[test]
    fn a_currency_is_three_capitals() {
        assert!(is_currency(b"DKK"));
        assert!(is_currency(b"AZA"));
        for other in [&b""[..], b"DK", b"DKKK", b"dkk", b"D[K", b"@KK", b"DK1"] {
            assert!(!is_currency(other));
        }
    }

    #[test]
    fn a_number_may_have_fifteen_digits() {
        assert_eq!(number(b"000000000017525"), 17_525);
        assert_eq!(number(b"999999999999999"), 999_999_999_999_999);
    }

    #[test]
    fn the_first_forbidden_byte_is_found() {
        assert_eq!(first_forbidden(b"AB CD", is_text), None);
        assert_eq!(first_forbidden(b"AB\x7f\x80", is_text), Some(2));
        assert_eq!(first_forbidden(b"", is_text), None);
    }
}
