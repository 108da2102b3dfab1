//! The lines of a text, one after another, and what is wrong with one.

use std::fmt;
use std::str;

use crate::capture::words::Words;

/// What is wrong with a text, and in which line, from 1.
#[derive(Clone, Debug, PartialEq, Eq)]
pub struct BadText {
    pub line: usize,
    pub what: String,
}

impl fmt::Display for BadText {
    fn fmt(&self, f: &mut fmt::Formatter<'_>) -> fmt::Result {
        write!(f, "line {}: {}", self.line, self.what)
    }
}

/// Hands on the words of each line, of which `take` says whether there were any; the number of the last line that had some, or 0.
pub fn each(text: &[u8], mut take: impl FnMut(&mut Words) -> Result<bool, String>) -> Result<usize, BadText> {
    let mut last = 0;
    for (before, line) in text.split(|&octet| octet == b'\n').enumerate() {
        let bad = |what| BadText { line: before + 1, what };
        let line = str::from_utf8(line).map_err(|_| bad(String::from("it is not text")))?;
        if take(&mut Words::of(line)).map_err(bad)? {
            last = before + 1;
        }
    }
    Ok(last)
}
