//! The report on a file.

use super::refusals::NO_ROOM;
use super::survey::{survey, Survey};
use crate::Refusal;
use std::io::{self, Write};

/// The most bytes that are reported on.
pub const LONGEST_FILE: usize = 65_536;
/// The most bad lines that a report lists.
pub const MOST_LISTED: usize = 100;

const TOO_LONG: &[u8] = b"TOO LONG\n";
const HEAD_LENGTH: usize = "LINES nnnnn BAD nnnnn\n".len();
const ROW_LENGTH: usize = "LINE nnnnn FIELD nn BYTE nnnnn FAULT nn\n".len();

/// Writes the report on a file to the front of `out`: the length of the report.
pub fn report(bytes: &[u8], out: &mut [u8]) -> Result<usize, Refusal> {
    if bytes.len() > LONGEST_FILE {
        front(out, TOO_LONG.len())?.copy_from_slice(TOO_LONG);
        return Ok(TOO_LONG.len());
    }
    let mut rows = [None; MOST_LISTED];
    let survey = survey(bytes, &mut rows);
    let length = HEAD_LENGTH + survey.bad.min(MOST_LISTED) * ROW_LENGTH;
    let room = front(out, length)?;
    write_report(&survey, rows.iter().flatten(), room).expect("every number fits its column");
    Ok(length)
}

/// As much of the front of the memory as is needed.
fn front(out: &mut [u8], length: usize) -> Result<&mut [u8], Refusal> {
    out.get_mut(..length).ok_or(NO_ROOM)
}

fn write_report<'a>(
    survey: &Survey,
    faults: impl Iterator<Item = &'a Refusal>,
    mut room: &mut [u8],
) -> io::Result<()> {
    writeln!(room, "LINES {:05} BAD {:05}", survey.lines, survey.bad)?;
    for fault in faults {
        writeln!(
            room,
            "LINE {:05} FIELD {:02} BYTE {:05} FAULT {:02}",
            fault.line, fault.field, fault.byte, fault.number
        )?;
    }
    Ok(())
}

#[cfg(test)]
mod tests {
    use super::*;
    use crate::inputs::{file_of, smallest};

    fn reported(bytes: &[u8]) -> String {
        let mut room = [b'#'; 5_000];
        let length = report(bytes, &mut room).unwrap();
        assert!(room[length..].iter().all(|&byte| byte == b'#'));
        String::from_utf8(room[..length].to_vec()).unwrap()
    }

    #[test]
    fn no_bytes_are_no_lines() {
        assert_eq!(reported(b""), "LINES 00000 BAD 00000\n");
    }

    #[test]
    fn a_bad_line_is_listed() {
        let report = "LINES 00001 BAD 00001\nLINE 00001 FIELD 01 BYTE 00004 FAULT 11\n";
        assert_eq!(reported(b"UBT\r\n"), report);
    }

    #[test]
    fn the_survey_goes_on_to_the_unended_rest() {
        let good = smallest(3).line;
        let file = [file_of(&[good.clone(), Vec::new(), good]), b"\n".to_vec()].concat();
        let report = "LINES 00004 BAD 00002\n\
            LINE 00002 FIELD 01 BYTE 00001 FAULT 11\n\
            LINE 00004 FIELD 00 BYTE 00000 FAULT 22\n";
        assert_eq!(reported(&file), report);
    }

    #[test]
    fn a_hundred_bad_lines_are_listed() {
        let report = reported(&b"\r\n".repeat(32_768));
        assert_eq!(report.len(), 4_022);
        assert!(report.starts_with("LINES 32768 BAD 32768\nLINE 00001 FIELD 01 BYTE 00001"));
        assert!(report.ends_with("LINE 00100 FIELD 01 BYTE 00001 FAULT 11\n"));
    }

    #[test]
    fn the_longest_line_fits_its_column() {
        let mut file = smallest(3).line;
        file.resize(LONGEST_FILE - 2, b' ');
        let report = reported(&file_of(&[file]));
        assert!(report.ends_with("LINE 00001 FIELD 22 BYTE 00243 FAULT 18\n"));
    }

    #[test]
    fn longer_files_are_too_long() {
        assert_eq!(reported(&[b'x'; 65_537]), "TOO LONG\n");
        assert!(reported(&[b'x'; 65_536]).starts_with("LINES 00001 BAD 00001\n"));
    }

    #[test]
    fn a_short_room_stays_as_it_was() {
        for (bytes, room) in [(&b""[..], 21), (b"UBT\r\n", 61), (&[b'x'; 65_537], 8)] {
            let mut room = vec![b'#'; room];
            assert_eq!(report(bytes, &mut room), Err(NO_ROOM));
            assert!(room.iter().all(|&byte| byte == b'#'));
            room.push(b'#');
            assert_eq!(report(bytes, &mut room), Ok(room.len()));
        }
    }
}
