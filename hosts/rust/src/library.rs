//! The static library's functions, as safe Rust.

use crate::Refusal;

/// The most bytes that a report has.
pub const LONGEST_REPORT: usize = 4_022;

#[repr(C)]
struct Answer {
    value: u64,
    line: usize,
    field: usize,
    byte: usize,
    number: u8,
    layer: u8,
}

extern "C" {
    fn edi4_judge_line(line: *const u8, length: usize) -> Answer;
    fn edi4_judge_file(bytes: *const u8, length: usize) -> Answer;
    fn edi4_total(
        bytes: *const u8,
        length: usize,
        currency: *const u8,
        currency_length: usize,
    ) -> Answer;
    fn edi4_report(bytes: *const u8, length: usize, out: *mut u8, out_length: usize) -> Answer;
}

impl Answer {
    fn into_result(self) -> Result<u64, Refusal> {
        if self.number == 0 {
            return Ok(self.value);
        }
        Err(Refusal {
            number: self.number,
            layer: self.layer,
            line: self.line,
            field: self.field,
            byte: self.byte,
        })
    }

    /// For values that count things in memory, and so fit a `usize`.
    fn into_count(self) -> Result<usize, Refusal> {
        self.into_result().map(|value| value as usize)
    }
}

/// Judges one line, given without its CR LF: the number of the layout that it belongs to.
///
/// ```
/// let advice = edi4::inputs::smallest(3).line;
/// assert_eq!(edi4::judge_line(&advice), Ok(3));
/// assert_eq!(edi4::judge_line(b"UBT99999").unwrap_err().number, 12);
/// ```
pub fn judge_line(line: &[u8]) -> Result<usize, Refusal> {
    // SAFETY: the pointer and the length are those of a slice that outlives the call;
    // the library only reads it.
    unsafe { edi4_judge_line(line.as_ptr(), line.len()) }.into_count()
}

/// Judges a whole file: the number of its records.
///
/// ```
/// let mut file = edi4::inputs::smallest(1).line;
/// file.extend(b"\r\n");
/// assert_eq!(edi4::judge_file(&file), Ok(1));
/// assert_eq!(edi4::judge_file(b"\r\nUBT").unwrap_err().number, 22);
/// ```
pub fn judge_file(bytes: &[u8]) -> Result<usize, Refusal> {
    // SAFETY: the pointer and the length are those of a slice that outlives the call;
    // the library only reads it.
    unsafe { edi4_judge_file(bytes.as_ptr(), bytes.len()) }.into_count()
}

/// The sum, in hundredths, of a file's amounts in one currency.
///
/// ```
/// assert_eq!(edi4::total(b"", b"DKK"), Ok(0));
/// assert_eq!(edi4::total(b"", b"dkk").unwrap_err().number, 39);
/// ```
pub fn total(bytes: &[u8], currency: &[u8]) -> Result<u64, Refusal> {
    // SAFETY: both pointers and lengths are those of slices that outlive the call;
    // the library only reads them.
    unsafe {
        edi4_total(
            bytes.as_ptr(),
            bytes.len(),
            currency.as_ptr(),
            currency.len(),
        )
    }
    .into_result()
}

/// Writes the report on a file to the front of `out`: the length of the report.
///
/// ```
/// let mut out = [0; 70];
/// let length = edi4::report(b"", &mut out).unwrap();
/// assert_eq!(&out[..length], b"LINES 00000 BAD 00000\n");
/// assert_eq!(edi4::report(b"", &mut out[..21]).unwrap_err().number, 45);
/// ```
pub fn report(bytes: &[u8], out: &mut [u8]) -> Result<usize, Refusal> {
    // SAFETY: both pointers and lengths are those of slices that outlive the call;
    // `out` is borrowed alone, so the memory that is written is not the memory that is read.
    unsafe { edi4_report(bytes.as_ptr(), bytes.len(), out.as_mut_ptr(), out.len()) }.into_count()
}

/// The report on a file, in memory of its own.
///
/// ```
/// let report = edi4::report_of(b"UBT\r\n");
/// assert!(report.ends_with(b"LINE 00001 FIELD 01 BYTE 00004 FAULT 11\n"));
/// ```
pub fn report_of(bytes: &[u8]) -> Vec<u8> {
    let mut room = vec![0; LONGEST_REPORT];
    let length = report(bytes, &mut room).expect("no report is longer than its room");
    room.truncate(length);
    room
}

#[cfg(test)]
mod tests {
    use super::*;
    use crate::inputs;
    use std::thread;

    #[test]
    fn a_refusal_comes_with_its_place() {
        let mut line = inputs::smallest(1).line;
        line[45..60].fill(b'0');
        let refusal = judge_line(&line).unwrap_err();
        assert_eq!(refusal.to_string(), "17 layer 2 line 0 field 4 byte 46");
    }

    #[test]
    fn a_report_leaves_what_stands_behind_it() {
        let mut out = [b'#'; 30];
        assert_eq!(report(b"", &mut out), Ok(22));
        assert_eq!(&out, b"LINES 00000 BAD 00000\n########");
    }

    #[test]
    fn a_refused_report_leaves_its_room() {
        let mut out = [b'#'; 21];
        assert_eq!(report(b"", &mut out).unwrap_err().number, 45);
        assert_eq!(out, [b'#'; 21]);
    }

    #[test]
    fn the_longest_report_has_room() {
        assert_eq!(report_of(&b"\r\n".repeat(100)).len(), LONGEST_REPORT);
    }

    #[test]
    fn calls_from_many_threads_agree() {
        let files: Vec<Vec<u8>> = (1..=4)
            .map(|layout| [inputs::largest(layout).line, b"\r\n".to_vec()].concat())
            .collect();
        thread::scope(|scope| {
            for file in &files {
                scope.spawn(move || (0..500).for_each(|_| assert_eq!(judge_file(file), Ok(1))));
            }
        });
    }
}
