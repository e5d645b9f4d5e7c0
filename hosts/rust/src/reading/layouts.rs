//! The kinds of field, and the built-in set of layouts.

/// A field of a layout: its kind with the kind's figures.
#[derive(Clone, Copy, Debug, PartialEq, Eq)]
pub enum Field {
    /// `UBT` and these five digits.
    Record([u8; 5]),
    /// Two digits whose number is low to high.
    Range(usize, usize),
    /// So many digits.
    Number(usize),
    /// So many zeros.
    Zeros(usize),
    /// So many text bytes, perhaps all blank.
    Text(usize),
    /// So many text bytes, one at least not blank.
    FilledText(usize),
    /// So many blanks.
    Blanks(usize),
    /// Eight digits whose number is a day.
    Day,
    /// Eight digits whose number is a day, or 0.
    DayOrZero,
    /// Fifteen digits, not all zero.
    Amount,
    /// Three letters A to Z.
    Currency,
    /// One of these four bytes.
    OneOf([u8; 4]),
    /// A count of low to high, and so many lines.
    Lines(usize, usize),
    /// A count of 0 or of this many, and so many lines that are not blank.
    AllOrNoLines(usize),
}

use Field::{
    AllOrNoLines, Amount, Blanks, Currency, Day, DayOrZero, FilledText, Lines, Number, OneOf,
    Range, Record, Text, Zeros,
};

/// The width of `UBT` and the record's digits.
pub const RECORD_WIDTH: usize = 8;
/// The digits of a range and of a block's count.
pub const COUNT_WIDTH: usize = 2;
/// The width of one line of a block.
pub const BLOCK_LINE_WIDTH: usize = 35;
/// The digits of a day.
pub const DAY_WIDTH: usize = 8;
/// The digits of an amount.
pub const AMOUNT_WIDTH: usize = 15;

/// The built-in set; layout 1 stands first.
pub const LAYOUTS: [&[Field]; 4] = [
    &PAYMENT,
    &ADVICE_WITH_TEXTS,
    &ADVICE_WITHOUT_TEXTS,
    &FOREIGN_CHEQUE,
];

const PAYMENT: [Field; 22] = [
    Record(*b"04500"),
    Range(0, 0),
    FilledText(35),
    Amount,
    Currency,
    OneOf(*b"NNNN"),
    Day,
    Text(20),
    FilledText(35),
    OneOf(*b"NNNN"),
    Number(3),
    Text(20),
    Text(35),
    Text(35),
    Number(3),
    Lines(0, 4),
    Lines(0, 41),
    AllOrNoLines(3),
    Blanks(153),
    OneOf(*b" N N"),
    Blanks(2),
    Text(35),
];

const ADVICE_WITH_TEXTS: [Field; 25] = [
    Record(*b"04601"),
    Range(1, 2),
    FilledText(35),
    Amount,
    Currency,
    OneOf(*b"JNJN"),
    Day,
    Text(20),
    Number(10),
    Number(2),
    Number(19),
    Number(3),
    Lines(0, 4),
    Lines(0, 41),
    Lines(0, 3),
    Blanks(145),
    Zeros(6),
    Blanks(2),
    Text(16),
    Number(16),
    Number(12),
    Day,
    Text(25),
    Text(3),
    Text(3),
];

const ADVICE_WITHOUT_TEXTS: [Field; 21] = [
    Record(*b"04602"),
    Range(1, 3),
    FilledText(35),
    Amount,
    Currency,
    OneOf(*b"JNJN"),
    Day,
    Text(20),
    Number(10),
    Number(2),
    Number(19),
    Number(3),
    Text(16),
    Number(16),
    Number(12),
    Day,
    Text(25),
    Text(3),
    Text(3),
    DayOrZero,
    Text(25),
];

const FOREIGN_CHEQUE: [Field; 31] = [
    Record(*b"05401"),
    Range(1, 2),
    FilledText(35),
    Amount,
    Currency,
    OneOf(*b"JNJN"),
    Day,
    Text(20),
    Text(11),
    Number(12),
    OneOf(*b"MNMN"),
    Blanks(1),
    FilledText(2),
    OneOf(*b"CDCD"),
    Blanks(145),
    Zeros(6),
    Blanks(2),
    Lines(3, 4),
    Lines(0, 4),
    Lines(0, 3),
    Text(40),
    Range(0, 2),
    Number(12),
    Number(15),
    Text(16),
    Number(16),
    Number(12),
    Day,
    Text(25),
    Text(3),
    Text(3),
];
