//! Reports on files with many bad lines and on long ones, and their memory.

use super::Run;
use crate::damage::damaged;
use crate::inputs::{file_of, largest, smallest};
use crate::library::LONGEST_REPORT;
use crate::reading::{self, LONGEST_FILE};

pub fn compare(run: &mut Run) {
    many_bad_lines(run);
    damaged_lines(run);
    rooms(run);
    long_files(run);
}

/// Files with fewer, with as many and with more bad lines than a report lists.
fn many_bad_lines(run: &mut Run) {
    run.sides.tally.start("many bad lines");
    let good = smallest(3).line;
    let good_and_bad = [&good[..], b"\r\n", &good[..9], b"\r\n"].concat();
    for count in [1, 2, 98, 99, 100, 101, 102, 150, 1_199, 1_200, 1_201] {
        for lines in [b"\r\n", &b"UBT04500 \r\n"[..], &good_and_bad] {
            let file = lines.repeat(count);
            run.sides.file(&file);
            run.sides.file(&[&file[..], b"x"].concat());
        }
    }
}

fn damaged_lines(run: &mut Run) {
    run.sides.tally.start("damaged lines");
    for _ in 0..run.amount_of(200, 1) {
        let mut lines = run.random_lines(130);
        for line in &mut lines {
            *line = damaged(line, &mut run.random);
        }
        run.sides.file(&file_of(&lines));
    }
}

/// Reports into memory that is too short, that is just right, and that is longer.
fn rooms(run: &mut Run) {
    run.sides.tally.start("rooms");
    let good = file_of(&[smallest(3).line, largest(4).line]);
    let mixed = [&good[..], b"UBT\r\n\r\n", &good, b"\n"].concat();
    let (some_bad, many_bad) = (b"\r\n".repeat(99), b"x\r\n".repeat(300));
    let too_long = vec![b'\n'; LONGEST_FILE + 1];
    for file in [b"", &good[..], &mixed, &some_bad, &many_bad, &too_long] {
        for room in (0..150).chain(3_970..4_030) {
            if run.wants_one_more() {
                run.sides.report(file, room);
            }
        }
        let length = reading::report(file, &mut [0; LONGEST_REPORT]).unwrap_or_default();
        for room in [length - 1, length, length + 1, length + 40] {
            run.sides.report(file, room);
        }
    }
}

/// Files of about as many bytes as are reported on.
fn long_files(run: &mut Run) {
    run.sides.tally.start("long files");
    let contents = [
        file_of(&run.random_lines(400)),
        file_of(&vec![smallest(3).line; 400]),
        b"x".repeat(80_000),
        b"\r\n".repeat(40_000),
        b"\n\r".repeat(40_000),
    ];
    for content in contents {
        for length in LONGEST_FILE - 1..=LONGEST_FILE + 2 {
            run.sides.file(&content[..length]);
            run.sides.file(&[&content[..length - 2], b"\r\n"].concat());
        }
    }
}
