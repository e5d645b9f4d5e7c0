//! Judging one line.

use super::fields::read_field;
use super::layouts::{Field, LAYOUTS, RECORD_WIDTH};
use super::refusals::{in_line, LINE_ENDS, UNKNOWN_RECORD};
use super::walk::Walk;
use crate::Refusal;

/// What a record says to the file that it stands in.
pub struct Record {
    /// The number of its layout.
    pub layout: usize,
    /// Its amount, in hundredths.
    pub amount: u64,
    pub currency: [u8; 3],
}

/// Judges one line, given without its CR LF: the number of the layout that it belongs to.
pub fn judge_line(line: &[u8]) -> Result<usize, Refusal> {
    read_line(line).map(|record| record.layout)
}

/// Reads one line as the record that it is, or gives its first fault.
pub fn read_line(line: &[u8]) -> Result<Record, Refusal> {
    let (layout, fields) = layout_of(line)?;
    let mut record = Record {
        layout,
        amount: 0,
        currency: [0; 3],
    };
    let mut walk = Walk::along(line);
    for &field in fields {
        walk.next_field();
        read_field(field, &mut walk, &mut record)?;
    }
    walk.end()?;
    Ok(record)
}

/// The number and the fields of the layout that bytes 4 to 8 name.
fn layout_of(line: &[u8]) -> Result<(usize, &'static [Field]), Refusal> {
    let Some(name) = line.get(..RECORD_WIDTH) else {
        return Err(in_line(LINE_ENDS, 1, line.len() + 1));
    };
    let named =
        |fields: &&[Field]| matches!(&fields[0], Field::Record(digits) if digits == &name[3..]);
    match LAYOUTS.iter().position(named) {
        Some(index) => Ok((index + 1, LAYOUTS[index])),
        None => Err(in_line(UNKNOWN_RECORD, 1, 1)),
    }
}

#[cfg(test)]
mod tests {
    use super::*;
    use crate::inputs::smallest;

    fn text(bytes: &[u8], width: usize) -> Vec<u8> {
        let mut text = bytes.to_vec();
        text.resize(width, b' ');
        text
    }

    /// A payment with one line of the name and so many lines of the message.
    fn payment(message: usize) -> Vec<u8> {
        let count = format!("{message:02}");
        [
            b"UBT0450000".to_vec(),
            text(b"1234", 35),
            b"000000000017525DKKN20240229".to_vec(),
            text(b"rent", 20),
            text(b"5678", 35),
            b"N001".to_vec(),
            text(b"", 20 + 35 + 35),
            b"000".to_vec(),
            [b"01", &text(b"Smith", 35)[..]].concat(),
            [count.as_bytes(), &text(b"", 35 * message)].concat(),
            b"00".to_vec(),
            text(b"", 153),
            text(b"N", 3),
            text(b"", 35),
        ]
        .concat()
    }

    /// The line with some bytes put in the place of as many others.
    fn with(mut line: Vec<u8>, place: usize, bytes: &[u8]) -> Vec<u8> {
        line[place - 1..place - 1 + bytes.len()].copy_from_slice(bytes);
        line
    }

    fn fault(line: &[u8]) -> (u8, usize, usize) {
        let refusal = judge_line(line).unwrap_err();
        assert_eq!((refusal.layer, refusal.line), (2, 0));
        (refusal.number, refusal.field, refusal.byte)
    }

    #[test]
    fn a_record_gives_its_amount_and_currency() {
        let line = payment(4);
        assert_eq!(line.len(), 421 + 5 * 35);
        let record = read_line(&line).unwrap();
        assert_eq!((record.layout, record.amount), (1, 17_525));
        assert_eq!(&record.currency, b"DKK");
    }

    #[test]
    fn a_line_may_end_too_soon() {
        let line = payment(4);
        let fields = [(0, 1), (7, 1), (8, 2), (9, 2), (45, 4), (59, 4), (223, 15)];
        let blocks = [
            (224, 16),
            (225, 16),
            (226, 16),
            (260, 16),
            (261, 17),
            (402, 17),
            (595, 22),
        ];
        for (length, field) in fields.into_iter().chain(blocks) {
            assert_eq!(fault(&line[..length]), (11, field, length + 1));
        }
    }

    #[test]
    fn the_digits_name_the_layout() {
        assert_eq!(fault(b"XBT04501"), (12, 1, 1));
        assert_eq!(fault(b"XBT04500"), (13, 1, 1));
        assert_eq!(fault(b"UBt04500"), (13, 1, 3));
        assert_eq!(fault(&with(payment(0), 4, b"04602")), (15, 2, 9));
    }

    #[test]
    fn each_kind_forbids_its_bytes() {
        for (place, byte, field) in [
            (10, b':', 2),
            (11, 127, 3),
            (60, b' ', 4),
            (61, b'd', 5),
            (64, b'J', 6),
            (65, b'/', 7),
            (92, 159, 8),
            (128, b' ', 10),
            (131, b'x', 11),
            (225, b'A', 16),
            (261, 31, 16),
            (402, 13, 17),
            (405, b' ', 18),
            (558, b'0', 19),
            (559, b'J', 20),
            (561, b'!', 21),
            (596, 0, 22),
        ] {
            assert_eq!(fault(&with(payment(4), place, &[byte])), (13, field, place));
        }
        assert_eq!(judge_line(&with(payment(4), 92, &[160])), Ok(1));
        assert_eq!(judge_line(&with(payment(4), 559, b" ")), Ok(1));
    }

    #[test]
    fn values_keep_to_their_rules() {
        assert_eq!(fault(&with(payment(0), 9, b"01")), (15, 2, 9));
        assert_eq!(fault(&with(payment(0), 11, &[b' '; 35])), (14, 3, 11));
        assert_eq!(fault(&with(payment(0), 46, &[b'0'; 15])), (17, 4, 46));
        assert_eq!(fault(&with(payment(0), 65, b"20230229")), (16, 7, 65));
        assert_eq!(fault(&with(payment(0), 65, b"00000000")), (16, 7, 65));
        assert_eq!(fault(&with(payment(0), 225, b"05")), (15, 16, 225));
        assert_eq!(fault(&with(payment(0), 262, b"42")), (15, 17, 262));
    }

    #[test]
    fn fields_behind_a_block_move() {
        assert_eq!(fault(&with(payment(4), 404, b"01")), (15, 18, 404));
        assert_eq!(fault(&with(payment(2), 334, b"04")), (15, 18, 334));
        assert_eq!(
            fault(&[payment(2), b" ".to_vec()].concat()),
            (18, 23, 597 - 70)
        );
    }

    #[test]
    fn a_block_is_checked_for_length_bytes_and_blanks_in_turn() {
        let line = payment(4);
        let remitter = [b"03", &text(b"x", 70)[..], &text(b"y", 35)].concat();
        let blank = [&line[..403], &remitter, &line[405..]].concat();
        assert_eq!(fault(&blank), (14, 18, 441));
        assert_eq!(fault(&with(blank.clone(), 510, &[127])), (13, 18, 510));
        assert_eq!(fault(&with(blank.clone(), 408, &[9])[..509]), (11, 18, 510));
        assert_eq!(judge_line(&with(blank, 475, b"z")), Ok(1));
    }

    #[test]
    fn the_other_layouts_have_their_bounds() {
        assert_eq!(fault(&with(smallest(2).line, 9, b"03")), (15, 2, 9));
        assert_eq!(fault(&with(smallest(2).line, 280, b"1")), (13, 17, 280));
        assert_eq!(judge_line(&with(smallest(3).line, 9, b"03")), Ok(3));
        assert_eq!(judge_line(&with(smallest(3).line, 210, b"20000229")), Ok(3));
        assert_eq!(
            fault(&with(smallest(3).line, 210, b"00000101")),
            (16, 20, 210)
        );
        assert_eq!(fault(&with(smallest(4).line, 274, b"02")), (15, 18, 274));
    }
}
