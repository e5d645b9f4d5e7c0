//! The refusal: why something was refused, and where.

use std::{error::Error, fmt};

/// Why something was refused, and where.
///
/// Lines, fields and bytes count from 1; 0 names no place.
#[derive(Clone, Copy, Debug, PartialEq, Eq)]
pub struct Refusal {
    /// The refusal's number, by the table of the format.
    pub number: u8,
    /// Where it arose: 2 in a line or a report, 3 in a file or a currency.
    pub layer: u8,
    /// The line in its file.
    pub line: usize,
    /// The field in its layout.
    pub field: usize,
    /// The byte in its line.
    pub byte: usize,
}

impl fmt::Display for Refusal {
    fn fmt(&self, out: &mut fmt::Formatter<'_>) -> fmt::Result {
        write!(
            out,
            "{} layer {} line {} field {} byte {}",
            self.number, self.layer, self.line, self.field, self.byte
        )
    }
}

impl Error for Refusal {}

#[cfg(test)]
mod tests {
    use super::*;

    #[test]
    fn a_refusal_shows_its_number_layer_and_place() {
        let refusal = Refusal {
            number: 17,
            layer: 2,
            line: 3,
            field: 4,
            byte: 46,
        };
        assert_eq!(refusal.to_string(), "17 layer 2 line 3 field 4 byte 46");
    }
}
