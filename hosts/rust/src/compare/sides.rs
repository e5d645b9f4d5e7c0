//! The two sides, called with the same input.

use super::tally::Tally;
use crate::{library, reading, Refusal};
use std::fmt;

/// What the memory of a report holds before it is written.
const UNTOUCHED: u8 = b'#';
/// Room for every report, and some bytes behind it.
const WIDE_ROOM: usize = library::LONGEST_REPORT + 8;
/// Room for the report on a line or two, and some bytes behind it.
const LINE_ROOM: usize = 110;

#[derive(Default)]
pub struct Sides {
    pub tally: Tally,
}

/// The whole memory that a report was written to.
#[derive(PartialEq)]
struct Room(Vec<u8>);

impl fmt::Debug for Room {
    fn fmt(&self, out: &mut fmt::Formatter<'_>) -> fmt::Result {
        write!(out, "\"{}\"", self.0.escape_ascii())
    }
}

impl Sides {
    /// All four calls on one line, given without its CR LF.
    pub fn line(&mut self, line: &[u8]) {
        self.judge_line(line);
        let file = [line, b"\r\n"].concat();
        self.judge_file(&file);
        self.total(&file, b"DKK");
        self.report(&file, LINE_ROOM);
    }

    /// All four calls on a file.
    pub fn file(&mut self, bytes: &[u8]) {
        self.judge_line(bytes);
        self.judge_file(bytes);
        self.total(bytes, b"DKK");
        self.total(bytes, b"EUR");
        self.report(bytes, WIDE_ROOM);
    }

    pub fn judge_line(&mut self, line: &[u8]) {
        let (library, reading) = (library::judge_line(line), reading::judge_line(line));
        self.compare(format_args!("judge_line"), line, library, reading);
    }

    pub fn judge_file(&mut self, bytes: &[u8]) {
        let (library, reading) = (library::judge_file(bytes), reading::judge_file(bytes));
        self.compare(format_args!("judge_file"), bytes, library, reading);
    }

    pub fn total(&mut self, bytes: &[u8], currency: &[u8]) {
        let library = library::total(bytes, currency);
        let reading = reading::total(bytes, currency);
        let call = format_args!("total in \"{}\"", currency.escape_ascii());
        self.compare(call, bytes, library, reading);
    }

    /// Compares the whole rooms as well: refused, or behind the report, they stay as they were.
    pub fn report(&mut self, bytes: &[u8], room: usize) {
        let (mut library_room, mut reading_room) = (vec![UNTOUCHED; room], vec![UNTOUCHED; room]);
        let library = library::report(bytes, &mut library_room);
        let reading = reading::report(bytes, &mut reading_room);
        self.tally.answered(&reading);
        self.tally.note(
            format_args!("report into {room} bytes"),
            bytes,
            (library, Room(library_room)),
            (reading, Room(reading_room)),
        );
    }

    fn compare<T: PartialEq + fmt::Debug>(
        &mut self,
        call: fmt::Arguments,
        input: &[u8],
        library: Result<T, Refusal>,
        reading: Result<T, Refusal>,
    ) {
        self.tally.answered(&reading);
        self.tally.note(call, input, library, reading);
    }
}
