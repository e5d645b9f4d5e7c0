//! Ways to damage a line or a file.

use crate::random::Random;

/// Bytes at the edges of what the kinds of field allow.
pub const TELLING_BYTES: [u8; 25] = [
    0, 9, b'\n', b'\r', 31, b' ', b'0', b'1', b'9', b':', b'/', b'@', b'A', b'Z', b'[', b'`', b'a',
    b'z', b'{', 126, 127, 128, 159, 160, 255,
];

/// What may stand where a CR LF should, or beside it.
pub const LINE_ENDS: [&[u8]; 12] = [
    b"\r\n",
    b"",
    b"\r",
    b"\n",
    b"\r\r\n",
    b"\n\r",
    b"\n\r\n",
    b"\r\n\r\n",
    b"\r\n\r",
    b"\r\n\n",
    b"\r\r",
    b" \r\n",
];

pub fn with_byte(bytes: &[u8], index: usize, byte: u8) -> Vec<u8> {
    let mut damaged = bytes.to_vec();
    damaged[index] = byte;
    damaged
}

pub fn with_inserted(bytes: &[u8], index: usize, byte: u8) -> Vec<u8> {
    [&bytes[..index], &[byte], &bytes[index..]].concat()
}

pub fn without(bytes: &[u8], index: usize) -> Vec<u8> {
    [&bytes[..index], &bytes[index + 1..]].concat()
}

pub fn with_swapped(bytes: &[u8], one: usize, other: usize) -> Vec<u8> {
    let mut damaged = bytes.to_vec();
    damaged.swap(one, other);
    damaged
}

/// Some damage in some place.
pub fn damaged(bytes: &[u8], random: &mut Random) -> Vec<u8> {
    let (length, byte) = (bytes.len(), random.pick(&TELLING_BYTES));
    if length == 0 {
        return vec![byte];
    }
    let index = random.index(length);
    match random.index(8) {
        0 => with_inserted(bytes, index, byte),
        1 => without(bytes, index),
        2 => with_swapped(bytes, index, random.index(length)),
        3 => bytes[..index].to_vec(),
        4 => [bytes, &[byte]].concat(),
        _ => with_byte(bytes, index, byte),
    }
}

#[cfg(test)]
mod tests {
    use super::*;

    #[test]
    fn damage_is_done_in_its_place() {
        assert_eq!(with_byte(b"abc", 1, b'x'), b"axc");
        assert_eq!(with_inserted(b"abc", 3, b'x'), b"abcx");
        assert_eq!(without(b"abc", 0), b"bc");
        assert_eq!(with_swapped(b"abc", 0, 2), b"cba");
    }
}
