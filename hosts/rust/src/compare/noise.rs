//! Random bytes.

use super::Run;
use crate::damage::TELLING_BYTES;
use crate::inputs::Sample;

const LONGEST: usize = 600;
/// Bytes that often make lines, and now and then the beginning of one.
const ALPHABET: &[u8] = b"UBT04500\r\n\r\n\r\n\r\n 0AN\x7f\xff";

pub fn compare(run: &mut Run, samples: &[Sample]) {
    random_bytes(run);
    random_letters(run);
    known_heads(run, samples);
}

fn random_bytes(run: &mut Run) {
    run.sides.tally.start("random bytes");
    for _ in 0..run.amount_of(5_000, 10) {
        let length = run.random.index(LONGEST);
        let bytes: Vec<u8> = (0..length).map(|_| run.random.byte()).collect();
        run.sides.file(&bytes);
    }
}

fn random_letters(run: &mut Run) {
    run.sides.tally.start("random letters");
    for _ in 0..run.amount_of(10_000, 20) {
        let length = run.random.index(LONGEST);
        let mut bytes: Vec<u8> = (0..length).map(|_| run.random.pick(ALPHABET)).collect();
        if run.random.one_in(2) {
            bytes.extend(b"\r\n");
        }
        run.sides.file(&bytes);
    }
}

/// The front of a valid line, and telling bytes behind it.
fn known_heads(run: &mut Run, samples: &[Sample]) {
    run.sides.tally.start("random bytes behind a head");
    for _ in 0..run.amount_of(1_000, 2) {
        for sample in samples {
            let head = run.random.index(sample.line.len());
            let mut line = sample.line[..head].to_vec();
            let length = run.random.index(LONGEST);
            line.extend((0..length).map(|_| run.random.pick(&TELLING_BYTES)));
            run.sides.line(&line);
        }
    }
}
