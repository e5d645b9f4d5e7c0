//! Valid lines to test with: for each layout its smallest, its largest, and random ones.

use crate::random::Random;
use crate::reading::layouts::{Field, BLOCK_LINE_WIDTH, LAYOUTS};
use std::ops::Range;

/// The currencies that most random lines are in.
pub const CURRENCIES: [[u8; 3]; 6] = [*b"DKK", *b"EUR", *b"USD", *b"SEK", *b"NOK", *b"GBP"];

const MOST_HUNDREDTHS: u64 = 999_999_999_999_999;
/// How many bytes are text: 32 to 126 and 160 to 255.
const TEXT_BYTES: u64 = 191;
const FIRST_DAY: u64 = 10101;
const LAST_DAY: u64 = 99991231;

/// A valid line, and where each of its fields stands in it.
#[derive(Clone, Debug)]
pub struct Sample {
    /// The number of the line's layout.
    pub layout: usize,
    pub line: Vec<u8>,
    pub parts: Vec<Range<usize>>,
}

impl Sample {
    /// The fields that are of some kind, by their indices.
    pub fn fields(&self, of_kind: impl Fn(&Field) -> bool) -> Vec<usize> {
        let fields = LAYOUTS[self.layout - 1].iter();
        fields
            .enumerate()
            .filter(|(_, field)| of_kind(field))
            .map(|(index, _)| index)
            .collect()
    }

    /// The line with other bytes in the place of one field.
    pub fn with(&self, field: usize, bytes: &[u8]) -> Vec<u8> {
        let part = &self.parts[field];
        [&self.line[..part.start], bytes, &self.line[part.end..]].concat()
    }
}

/// The line with the fewest bytes and the smallest values.
pub fn smallest(layout: usize) -> Sample {
    sample(layout, &mut Filling::Smallest)
}

/// The line with the most bytes and the largest values.
pub fn largest(layout: usize) -> Sample {
    sample(layout, &mut Filling::Largest)
}

pub fn random(layout: usize, random: &mut Random) -> Sample {
    sample(layout, &mut Filling::Random(random))
}

/// A file of these lines.
pub fn file_of<L: AsRef<[u8]>>(lines: &[L]) -> Vec<u8> {
    let ended = |line: &L| [line.as_ref(), b"\r\n"].concat();
    lines.iter().flat_map(ended).collect()
}

fn sample(layout: usize, filling: &mut Filling) -> Sample {
    let (mut line, mut parts) = (Vec::new(), Vec::new());
    for &field in LAYOUTS[layout - 1] {
        let start = line.len();
        filling.fill(field, &mut line);
        parts.push(start..line.len());
    }
    Sample {
        layout,
        line,
        parts,
    }
}

/// What the fields of a line are filled with.
enum Filling<'a> {
    Smallest,
    Largest,
    Random(&'a mut Random),
}

impl Filling<'_> {
    fn fill(&mut self, field: Field, line: &mut Vec<u8>) {
        match field {
            Field::Record(digits) => line.extend([&b"UBT"[..], &digits].concat()),
            Field::Range(low, high) => self.digits(2, low as u64, high as u64, line),
            Field::Number(width) => (0..width).for_each(|_| self.digits(1, 0, 9, line)),
            Field::Zeros(width) => line.extend(vec![b'0'; width]),
            Field::Text(width) => line.extend(self.text(width)),
            Field::FilledText(width) => line.extend(self.filled_text(width)),
            Field::Blanks(width) => line.extend(vec![b' '; width]),
            Field::Day => put_digits(self.day(), 8, line),
            Field::DayOrZero if self.number(0, 1) == 0 => put_digits(0, 8, line),
            Field::DayOrZero => put_digits(self.day(), 8, line),
            Field::Amount => self.digits(15, 1, MOST_HUNDREDTHS, line),
            Field::Currency => line.extend(self.currency()),
            Field::OneOf(four) => line.push(four[self.number(0, 3) as usize]),
            Field::Lines(low, high) => {
                let lines = self.number(low as u64, high as u64);
                self.block(lines, line);
            }
            Field::AllOrNoLines(all) => {
                let lines = all as u64 * self.number(0, 1);
                self.block(lines, line);
            }
        }
    }

    fn number(&mut self, low: u64, high: u64) -> u64 {
        match self {
            Filling::Smallest => low,
            Filling::Largest => high,
            Filling::Random(random) => random.within(low, high),
        }
    }

    fn digits(&mut self, width: usize, low: u64, high: u64, line: &mut Vec<u8>) {
        put_digits(self.number(low, high), width, line);
    }

    fn text(&mut self, width: usize) -> Vec<u8> {
        // A random text is shorter than its field at times, and blank at times.
        let filled = self.number(0, 2 * width as u64).min(width as u64) as usize;
        let mut text: Vec<u8> = (0..filled).map(|_| self.text_byte()).collect();
        text.resize(width, b' ');
        text
    }

    fn text_byte(&mut self) -> u8 {
        match self.number(0, TEXT_BYTES - 1) as u8 {
            low @ 0..=94 => b' ' + low,
            high => 160 + (high - 95),
        }
    }

    fn filled_text(&mut self, width: usize) -> Vec<u8> {
        let mut text = self.text(width);
        let index = self.number(0, width as u64 - 1) as usize;
        text[index] = self.text_byte().max(b'!');
        text
    }

    fn currency(&mut self) -> [u8; 3] {
        match self.number(0, CURRENCIES.len() as u64 + 1) as usize {
            known @ 1..=6 => CURRENCIES[known - 1],
            _ => [(); 3].map(|()| self.number(b'A'.into(), b'Z'.into()) as u8),
        }
    }

    fn day(&mut self) -> u64 {
        match self {
            Filling::Smallest => FIRST_DAY,
            Filling::Largest => LAST_DAY,
            Filling::Random(random) => random_day(random),
        }
    }

    /// A count and its lines, none of them blank: so they do for either kind of block.
    fn block(&mut self, lines: u64, line: &mut Vec<u8>) {
        put_digits(lines, 2, line);
        for _ in 0..lines {
            line.extend(self.filled_text(BLOCK_LINE_WIDTH));
        }
    }
}

fn put_digits(number: u64, width: usize, line: &mut Vec<u8>) {
    line.extend(format!("{number:0width$}").into_bytes());
}

fn random_day(random: &mut Random) -> u64 {
    if random.one_in(20) {
        return random.pick(&[4, 400, 1600, 2000, 2024, 9996]) * 10_000 + 229;
    }
    let month = random.within(1, 12);
    let last = match month {
        2 => 28,
        4 | 6 | 9 | 11 => 30,
        _ => 31,
    };
    random.within(1, 9999) * 10_000 + month * 100 + random.within(1, last)
}

#[cfg(test)]
mod tests {
    use super::*;
    use crate::reading::judge_line;

    #[test]
    fn samples_have_the_lengths_of_their_layouts() {
        let lengths = [(421, 2_101), (368, 2_048), (242, 242), (536, 816)];
        for (layout, (least, most)) in (1..).zip(lengths) {
            assert_eq!(smallest(layout).line.len(), least);
            assert_eq!(largest(layout).line.len(), most);
        }
    }

    #[test]
    fn samples_belong_to_their_layouts() {
        let mut generator = Random::seeded(45);
        for layout in 1..=LAYOUTS.len() {
            assert_eq!(judge_line(&smallest(layout).line), Ok(layout));
            assert_eq!(judge_line(&largest(layout).line), Ok(layout));
            for _ in 0..500 {
                let sample = random(layout, &mut generator);
                assert_eq!(judge_line(&sample.line), Ok(layout), "{sample:?}");
            }
        }
    }

    #[test]
    fn the_smallest_payment_stands_as_written() {
        let sample = smallest(1);
        let head = [
            &b"UBT0450000!"[..],
            &[b' '; 34],
            b"000000000000001AAAN00010101",
        ]
        .concat();
        assert!(sample.line.starts_with(&head));
        assert_eq!(sample.parts[15], 224..226);
    }
}
