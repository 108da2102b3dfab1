//! A line that a program printed, read as a reply line or as the refusal of a file.

use crate::call::Reply;
use crate::conformance::playing::Event;
use crate::model::capture::kind;

/// The word before a file's refusal.
const REFUSED: &str = "refused";

/// What a line says, if it says anything that a line can.
#[derive(Clone, Copy, Debug, PartialEq, Eq)]
pub enum Line {
    /// "port, event number from 1, kind, refusal or 0, two reply numbers".
    Reply { port: u64, event: u64, kind: u64, refusal: u64, numbers: [u64; 2] },
    /// "refused N I".
    Refused { refusal: u64, index: u64 },
}

impl Line {
    /// The refusal and the two reply numbers, if it is the line of an event.
    pub fn reply_to(&self, due: &Event) -> Option<(u64, [u64; 2])> {
        match *self {
            Line::Reply { port, event, kind: of_kind, refusal, numbers } => {
                let own = (due.port as u64, due.number as u64, u64::from(kind(due.call)));
                ((port, event, of_kind) == own).then_some((refusal, numbers))
            }
            Line::Refused { .. } => None,
        }
    }
}

/// Reads a line, however its numbers are spaced and padded.
pub fn read(line: &[u8]) -> Option<Line> {
    let text = std::str::from_utf8(line).ok()?;
    match text.trim().strip_prefix(REFUSED) {
        Some(rest) => match numbers(rest)?[..] {
            [refusal, index] => Some(Line::Refused { refusal, index }),
            _ => None,
        },
        None => match numbers(text)?[..] {
            [port, event, kind, refusal, first, second] => Some(Line::Reply { port, event, kind, refusal, numbers: [first, second] }),
            _ => None,
        },
    }
}

/// The numbers of a text, if it has nothing else.
fn numbers(text: &str) -> Option<Vec<u64>> {
    text.split_whitespace().map(|word| word.parse().ok()).collect()
}

/// A reply of these numbers, if they are such as a reply can have.
pub fn reply(refusal: u64, numbers: [u64; 2]) -> Option<Reply> {
    let [first, second] = numbers.map(u32::try_from);
    Some(Reply { refusal: refusal.try_into().ok()?, first: first.ok()?, second: second.ok()? })
}

#[cfg(test)]
mod tests {
    use super::*;

    #[test]
    fn lines_are_read() {
        let reply = Line::Reply { port: 0, event: 12, kind: 3, refusal: 0, numbers: [2, 100] };
        assert_eq!(read(b"0 12 3 0 2 100"), Some(reply));
        assert_eq!(read(b" 00  12 3 0 2 0100\r"), Some(reply));
        assert_eq!(read(b"refused 24 7"), Some(Line::Refused { refusal: 24, index: 7 }));
    }

    #[test]
    fn other_lines_are_none() {
        for line in ["", "0 12 3 0 2", "0 12 3 0 2 100 1", "0 12 3 0 2 -1", "a b c d e f", "refused 24", "refused 24 7 1", "refuse 24 7"] {
            assert_eq!(read(line.as_bytes()), None, "{line}");
        }
        assert_eq!(read(b"0 12 3 0 2 \xff"), None);
    }

    #[test]
    fn numbers_that_no_reply_has_make_none() {
        assert_eq!(reply(14, [0, 0]), Some(Reply::refused(14)));
        assert_eq!(reply(0, [255, 4_294_967_295]), Some(Reply::granted(255, u32::MAX)));
        assert_eq!((reply(256, [0, 0]), reply(0, [0, 4_294_967_296])), (None, None));
    }
}
