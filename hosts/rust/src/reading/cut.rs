//! Cutting bytes into lines, at each CR directly followed by LF.

const LINE_END: &[u8] = b"\r\n";

/// The lines of some bytes, in their order, without their CR LF.
pub struct Lines<'a> {
    /// What no line has been taken from yet; behind the last line, the unended rest.
    rest: &'a [u8],
}

impl<'a> Lines<'a> {
    pub fn of(bytes: &'a [u8]) -> Self {
        Lines { rest: bytes }
    }

    /// Whether bytes stand behind the last CR LF.
    pub fn leave_a_rest(&self) -> bool {
        !self.rest.is_empty() && !self.rest.ends_with(LINE_END)
    }
}

impl<'a> Iterator for Lines<'a> {
    type Item = &'a [u8];

    fn next(&mut self) -> Option<&'a [u8]> {
        let (line, behind) = self.rest.split_at(line_length(self.rest)?);
        self.rest = &behind[LINE_END.len()..];
        Some(line)
    }
}

/// How many bytes stand before the first CR LF.
fn line_length(bytes: &[u8]) -> Option<usize> {
    let mut looked_at = 0;
    loop {
        let feed = looked_at + position(&bytes[looked_at..], b'\n')?;
        if bytes[..feed].ends_with(b"\r") {
            return Some(feed - 1);
        }
        looked_at = feed + 1;
    }
}

/// The index of the first such byte.
fn position(bytes: &[u8], wanted: u8) -> Option<usize> {
    // A chunk is searched without leaving early, so that the compiler takes its bytes at once.
    const CHUNK: usize = 32;
    let is_wanted = |&byte: &u8| byte == wanted;
    let has_it = |chunk: &[u8; CHUNK]| chunk.iter().fold(false, |has, byte| has | is_wanted(byte));
    let (chunks, _) = bytes.as_chunks();
    let start = chunks.iter().position(has_it).unwrap_or(chunks.len()) * CHUNK;
    Some(start + bytes[start..].iter().position(is_wanted)?)
}

#[cfg(test)]
mod tests {
    use super::*;

    fn cut(bytes: &[u8]) -> Vec<&[u8]> {
        Lines::of(bytes).collect()
    }

    #[test]
    fn no_bytes_are_no_lines() {
        assert!(cut(b"").is_empty());
        assert!(!Lines::of(b"").leave_a_rest());
    }

    #[test]
    fn each_cr_lf_ends_a_line() {
        assert_eq!(cut(b"a\r\n\r\nbc\r\n"), [&b"a"[..], b"", b"bc"]);
        assert!(!Lines::of(b"a\r\n").leave_a_rest());
    }

    #[test]
    fn a_lone_cr_or_lf_is_a_byte_of_its_line() {
        assert_eq!(
            cut(b"a\rb\nc\r\r\n\nd\n\r\n"),
            [&b"a\rb\nc\r"[..], b"\nd\n"]
        );
    }

    #[test]
    fn the_rest_is_no_line() {
        for bytes in [&b"a\r\nb"[..], b"a\r\n\r", b"a\r\n\n", b"a\r\nb\n\r"] {
            assert_eq!(cut(bytes), [b"a"]);
            assert!(Lines::of(bytes).leave_a_rest());
        }
    }

    #[test]
    fn long_lines_are_cut_too() {
        for length in [29, 30, 31, 32, 33, 62, 63, 64, 65, 127, 128, 2_101] {
            let line = vec![b'x'; length];
            let bytes = [&line[..], b"\r\n", &line, b"\n"].concat();
            assert_eq!(cut(&bytes), [&line[..]]);
        }
    }
}
