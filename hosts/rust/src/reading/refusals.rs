//! The numbers of the refusals, and refusals made from them.

use crate::Refusal;

pub const LINE_ENDS: u8 = 11;
pub const UNKNOWN_RECORD: u8 = 12;
pub const FORBIDDEN_BYTE: u8 = 13;
pub const BLANK_TEXT: u8 = 14;
pub const OUT_OF_BOUNDS: u8 = 15;
pub const NO_DAY: u8 = 16;
pub const ZERO_AMOUNT: u8 = 17;
pub const LEFT_OVER: u8 = 18;
pub const UNENDED: u8 = 22;
pub const TOO_MANY_LINES: u8 = 23;

pub const NOT_A_CURRENCY: Refusal = in_file(39, 0);
pub const NO_ROOM: Refusal = in_line(45, 0, 0);

/// A refusal of layer 2; it names no line until it is known which line it is in.
pub const fn in_line(number: u8, field: usize, byte: usize) -> Refusal {
    Refusal {
        number,
        layer: 2,
        line: 0,
        field,
        byte,
    }
}

/// A refusal of layer 3; it names a line alone.
pub const fn in_file(number: u8, line: usize) -> Refusal {
    Refusal {
        number,
        layer: 3,
        line,
        field: 0,
        byte: 0,
    }
}

impl Refusal {
    /// The same refusal, with the number of the line that it is in.
    pub(super) fn of_line(self, line: usize) -> Refusal {
        Refusal { line, ..self }
    }
}
