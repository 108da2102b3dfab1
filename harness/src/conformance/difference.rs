//! Where what a program printed first differs from what the rule prints, line by line.

/// The line at which two outputs part, from 0, and how.
#[derive(Clone, Debug, PartialEq, Eq)]
pub struct Difference {
    pub line: usize,
    pub how: How,
}

/// How a program's line differs from the rule's; lines stand here without their line feed.
#[derive(Clone, Debug, PartialEq, Eq)]
pub enum How {
    /// It is another line, whether or not a line feed follows it.
    Other { printed: Vec<u8>, ended: bool },
    /// It is not there: the program's output ends before it.
    Missing,
    /// It is one more than the rule has.
    Surplus { printed: Vec<u8> },
    /// It is the same, the program's last, and no line feed follows it.
    NoLineFeed,
    /// It is the same with a carriage return before the line feed.
    CarriageReturn,
}

/// The first difference, if there is one.
pub fn first(printed: &[u8], output: &str) -> Option<Difference> {
    let mut printed = printed.split_inclusive(|&octet| octet == b'\n');
    let mut lines = output.lines();
    for line in 0.. {
        let how = match (printed.next(), lines.next()) {
            (None, None) => return None,
            (None, Some(_)) => Some(How::Missing),
            (Some(printed), None) => Some(How::Surplus { printed: without_line_feed(printed).0.to_vec() }),
            (Some(printed), Some(due)) => how(printed, due.as_bytes()),
        };
        match how {
            None => continue,
            // Where lines are due after it, these are what is missed.
            Some(How::NoLineFeed) if lines.next().is_some() => return Some(Difference { line: line + 1, how: How::Missing }),
            Some(how) => return Some(Difference { line, how }),
        }
    }
    None
}

/// How a printed line, with its line feed if it has one, differs from the one that is due.
fn how(printed: &[u8], due: &[u8]) -> Option<How> {
    match without_line_feed(printed) {
        (line, true) if line == due => None,
        (line, false) if line == due => Some(How::NoLineFeed),
        (line, _) if line.strip_suffix(b"\r") == Some(due) => Some(How::CarriageReturn),
        (line, ended) => Some(How::Other { printed: line.to_vec(), ended }),
    }
}

/// A line without its line feed, and whether it had one.
fn without_line_feed(line: &[u8]) -> (&[u8], bool) {
    match line.strip_suffix(b"\n") {
        Some(line) => (line, true),
        None => (line, false),
    }
}

#[cfg(test)]
mod tests {
    use super::*;

    /// What the rule prints.
    const OUTPUT: &str = "0 1 1 0 600 0\n0 2 5 0 0 0\n";

    /// Holds the first difference of what is printed against what is expected.
    #[track_caller]
    fn differs(printed: &str, line: usize, how: How) {
        assert_eq!(first(printed.as_bytes(), OUTPUT), Some(Difference { line, how }));
    }

    /// Another line, with a line feed.
    fn other(line: &str) -> How {
        How::Other { printed: line.into(), ended: true }
    }

    #[test]
    fn the_same_output_does_not_differ() {
        assert_eq!(first(OUTPUT.as_bytes(), OUTPUT), None);
        assert_eq!(first(b"", ""), None);
    }

    #[test]
    fn the_first_other_line_is_found() {
        differs("0 1 1 0 601 0\n0 2 5 0 0 1\n", 0, other("0 1 1 0 601 0"));
        differs("0 1 1 0 600 0\n0 2 5 1 0 0\n", 1, other("0 2 5 1 0 0"));
        differs("0 1 1 0 600 0\n\n0 2 5 0 0 0\n", 1, other(""));
        differs("0 1 1 0 600 0\n0 2 5 0 0", 1, How::Other { printed: b"0 2 5 0 0".to_vec(), ended: false });
        differs("0 1 1 0 600 0\n0 2 5 0 0 0 \n", 1, other("0 2 5 0 0 0 "));
    }

    #[test]
    fn lines_that_are_missing_are_found() {
        differs("", 0, How::Missing);
        differs("0 1 1 0 600 0\n", 1, How::Missing);
        differs("0 1 1 0 600 0", 1, How::Missing);
    }

    #[test]
    fn lines_that_are_too_many_are_found() {
        differs("0 1 1 0 600 0\n0 2 5 0 0 0\n0 3 6 0 254 0\n", 2, How::Surplus { printed: b"0 3 6 0 254 0".to_vec() });
        differs("0 1 1 0 600 0\n0 2 5 0 0 0\n\n", 2, How::Surplus { printed: Vec::new() });
        assert_eq!(first(b"x", ""), Some(Difference { line: 0, how: How::Surplus { printed: b"x".to_vec() } }));
    }

    #[test]
    fn a_last_line_without_line_feed_is_found() {
        differs("0 1 1 0 600 0\n0 2 5 0 0 0", 1, How::NoLineFeed);
    }

    #[test]
    fn carriage_returns_are_found() {
        differs("0 1 1 0 600 0\r\n0 2 5 0 0 0\r\n", 0, How::CarriageReturn);
        differs("0 1 1 0 600 0\n0 2 5 0 0 0\r\n", 1, How::CarriageReturn);
        differs("0 1 1 0 600 1\r\n", 0, other("0 1 1 0 600 1\r"));
    }
}
