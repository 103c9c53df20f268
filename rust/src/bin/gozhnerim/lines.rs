//! Lines of any bytes and any length.

use std::io::{self, BufRead, ErrorKind};

/// A longer line is cut.
pub const LONGEST: usize = 4096;

/// What some programs write before the first line of a UTF-8 text.
const BYTE_ORDER_MARK: &[u8] = "\u{feff}".as_bytes();

/// A line without its line break.
#[derive(Debug, PartialEq)]
pub struct Line {
    /// Its first bytes, at most `LONGEST`.
    pub bytes: Vec<u8>,
    /// Whether it is longer than that.
    pub cut: bool,
}

impl Line {
    /// Takes away a byte order mark at the beginning.
    pub fn skip_mark(&mut self) {
        if self.bytes.starts_with(BYTE_ORDER_MARK) {
            self.bytes.drain(..BYTE_ORDER_MARK.len());
        }
    }
}

/// The next line, or nothing at the end. The memory that it takes is bounded.
pub fn next(input: &mut impl BufRead) -> io::Result<Option<Line>> {
    let mut line = Line {
        bytes: Vec::new(),
        cut: false,
    };
    let mut begun = false;
    loop {
        let part = match input.fill_buf() {
            Ok(part) => part,
            Err(error) if error.kind() == ErrorKind::Interrupted => continue,
            Err(error) => return Err(error),
        };
        if part.is_empty() {
            return Ok(begun.then_some(line));
        }
        begun = true;
        let end = part.iter().position(|&byte| byte == b'\n');
        let length = end.unwrap_or(part.len());
        let kept = length.min(LONGEST - line.bytes.len());
        line.bytes.extend_from_slice(&part[..kept]);
        line.cut |= kept < length;
        input.consume(end.map_or(length, |end| end + 1));
        if end.is_some() {
            return Ok(Some(line));
        }
    }
}

#[cfg(test)]
mod tests {
    use super::*;
    use std::io::BufReader;

    /// The lines of a text that is read some bytes at a time.
    fn lines(text: &[u8], at_a_time: usize) -> Vec<(usize, bool)> {
        let mut input = BufReader::with_capacity(at_a_time, text);
        let next = || next(&mut input).unwrap();
        let length = |line: Line| (line.bytes.len(), line.cut);
        std::iter::from_fn(next).map(length).collect()
    }

    #[test]
    fn lines_end_at_a_line_break_or_at_the_end() {
        for at_a_time in [1, 2, 3, 100] {
            let read = |text: &str| lines(text.as_bytes(), at_a_time);
            assert_eq!(read(""), []);
            assert_eq!(read("\n"), [(0, false)]);
            assert_eq!(read("ab\n\nc"), [(2, false), (0, false), (1, false)]);
        }
    }

    #[test]
    fn long_lines_are_cut() {
        for at_a_time in [1000, LONGEST, 3 * LONGEST] {
            let mut text = vec![b'1'; LONGEST];
            text.push(b'\n');
            text.extend(vec![b'2'; 2 * LONGEST]);
            text.extend(b"\n3");
            let expected = [(LONGEST, false), (LONGEST, true), (1, false)];
            assert_eq!(lines(&text, at_a_time), expected);
        }
    }
}
