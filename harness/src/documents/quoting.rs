//! What a document says that the stored captures print, and what it links to. A line of output that is set as code, or a fenced output, is of the
//! capture that was named last before it, as in `captures/sample.capture`.

use super::pieces::{spans, Content, Piece};

/// What a document says that a capture prints.
#[derive(Debug, PartialEq, Eq)]
pub struct Quote {
    pub section: String,
    /// The name of the capture, or nothing where none was named.
    pub capture: Option<String>,
    pub text: String,
    /// Whether the text is the whole output; otherwise it is a line of it.
    pub whole: bool,
}

/// What the pieces of a document say that captures print, and nothing of captures of which they say nothing.
pub fn quotes(pieces: &[Piece]) -> Vec<Quote> {
    let mut reader = Reader::default();
    for piece in pieces {
        reader.take(piece);
    }
    reader.quotes
}

/// The names of the captures that the pieces of a document name, each with its section.
pub fn captures(pieces: &[Piece]) -> Vec<(&str, &str)> {
    pieces.iter().flat_map(|piece| in_piece(piece).into_iter().filter_map(|code| Some((piece.section.as_str(), capture(code)?)))).collect()
}

/// What a document links to, each with its section.
pub fn links(pieces: &[Piece]) -> Vec<(&str, &str)> {
    pieces.iter().flat_map(|piece| piece.texts().into_iter().flat_map(linked).map(|link| (piece.section.as_str(), link))).collect()
}

/// What a text links to.
fn linked(text: &str) -> Vec<&str> {
    text.split("](").skip(1).filter_map(|rest| rest.split(')').next()).collect()
}

/// The words of a piece that are set as code.
fn in_piece(piece: &Piece) -> Vec<&str> {
    piece.texts().into_iter().flat_map(spans).map(|span| span.code).collect()
}

/// The capture that words name, if they name one.
fn capture(code: &str) -> Option<&str> {
    code.strip_prefix("captures/")?.strip_suffix(".capture")
}

/// Whether a line is one that `replay` prints: six numbers, or `refused` and two.
fn is_output(line: &str) -> bool {
    let (numbers, count) = line.strip_prefix("refused ").map_or((line, 6), |rest| (rest, 2));
    let all = numbers.split(' ').all(|number| !number.is_empty() && number.bytes().all(|octet| octet.is_ascii_digit()));
    all && numbers.split(' ').count() == count
}

/// What was read of a document so far.
#[derive(Default)]
struct Reader {
    quotes: Vec<Quote>,
    /// The capture that was named last.
    capture: Option<String>,
}

impl Reader {
    /// Takes the next piece.
    fn take(&mut self, piece: &Piece) {
        if let Content::Fenced(text) = &piece.content {
            if text.lines().next().is_some_and(is_output) {
                self.put(piece, text, true);
            }
        }
        for code in in_piece(piece) {
            if let Some(name) = capture(code) {
                self.capture = Some(String::from(name));
            } else if is_output(code) {
                self.put(piece, code, false);
            }
        }
    }

    /// Adds what is said of the capture that was named last.
    fn put(&mut self, piece: &Piece, text: &str, whole: bool) {
        self.quotes.push(Quote { section: piece.section.clone(), capture: self.capture.clone(), text: String::from(text), whole });
    }
}
