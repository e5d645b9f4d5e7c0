//! A walk along a line, one part after another.

use super::bytes::first_forbidden;
use super::refusals::{in_line, FORBIDDEN_BYTE, LEFT_OVER, LINE_ENDS};
use crate::Refusal;

/// Where a walk along a line has come to.
pub struct Walk<'a> {
    line: &'a [u8],
    /// The number of the field that is looked at; 0 before the first.
    field: usize,
    /// How many bytes lie behind.
    passed: usize,
}

/// A stretch of the line, and the place of its first byte.
pub struct Part<'a> {
    pub bytes: &'a [u8],
    pub place: usize,
}

impl<'a> Walk<'a> {
    pub fn along(line: &'a [u8]) -> Self {
        Walk {
            line,
            field: 0,
            passed: 0,
        }
    }

    pub fn next_field(&mut self) {
        self.field += 1;
    }

    /// The next part, whatever its bytes are.
    pub fn take(&mut self, width: usize) -> Result<Part<'a>, Refusal> {
        let (start, end) = (self.passed, self.passed + width);
        let Some(bytes) = self.line.get(start..end) else {
            return self.refuse(LINE_ENDS, self.line.len() + 1);
        };
        self.passed = end;
        Ok(Part {
            bytes,
            place: start + 1,
        })
    }

    /// The next part, which must be of allowed bytes alone.
    pub fn take_of(
        &mut self,
        width: usize,
        allowed: impl Fn(u8) -> bool,
    ) -> Result<Part<'a>, Refusal> {
        let part = self.take(width)?;
        match first_forbidden(part.bytes, allowed) {
            Some(index) => self.refuse(FORBIDDEN_BYTE, part.place + index),
            None => Ok(part),
        }
    }

    /// A refusal in the field that is looked at.
    pub fn refuse<T>(&self, number: u8, place: usize) -> Result<T, Refusal> {
        Err(in_line(number, self.field, place))
    }

    /// To be called behind the last field: nothing may be left.
    pub fn end(mut self) -> Result<(), Refusal> {
        self.next_field();
        if self.passed < self.line.len() {
            return self.refuse(LEFT_OVER, self.passed + 1);
        }
        Ok(())
    }
}
