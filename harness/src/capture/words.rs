//! The words of one line of the text form, taken one after another.

use std::fmt::Display;
use std::str::{FromStr, SplitWhitespace};

/// Begins the line of a run of records at whose front the named ports start.
pub const PORT: &str = "port";
/// Begins the line of a run of records at whose front no port starts.
pub const CHAIN: &str = "chain";
/// Begins the line that gives a port's first index outright.
pub const FIRST: &str = "first";
/// Stands before the next index at the end of an event's line.
pub const NEXT: &str = "next";
/// Begins the line of a record, or of what lies beyond the last whole one, in hexadecimal digits.
pub const OCTETS: &str = "octets";
/// Begins the line of a header in hexadecimal digits.
pub const HEADER: &str = "header";
/// Begins what is left out of a line.
const COMMENT: char = '#';
/// The base of the digits of octets.
const HEXADECIMAL: u32 = 16;

/// The words of a line that were not taken yet.
pub struct Words<'a> {
    words: SplitWhitespace<'a>,
}

impl<'a> Words<'a> {
    /// The words of a line, its comment left out.
    pub fn of(line: &'a str) -> Words<'a> {
        Words { words: line.split(COMMENT).next().unwrap_or_default().split_whitespace() }
    }

    /// The next word, if there is one.
    pub fn word(&mut self) -> Option<&'a str> {
        self.words.next()
    }

    /// A number up to the greatest, the next word; `what` is its name with an article.
    pub fn number<Number: FromStr + PartialOrd + Display>(&mut self, what: &str, greatest: Number) -> Result<Number, String> {
        let word = self.word().ok_or_else(|| format!("{what} is missing"))?;
        number(word, what, greatest)
    }

    /// Octets in hexadecimal digits, at most as many as are given; none where the word is missing.
    pub fn octets(&mut self, most: usize) -> Result<Vec<u8>, String> {
        let word = self.word().unwrap_or_default();
        if let Some(other) = word.chars().find(|digit| !digit.is_digit(HEXADECIMAL)) {
            return Err(format!("'{other}' is no hexadecimal digit"));
        }
        if word.len() % 2 != 0 {
            return Err(String::from("an octet has two hexadecimal digits, and the last one has one"));
        }
        if word.len() > 2 * most {
            return Err(format!("there are more than {most} octets"));
        }
        let octet = |at: usize| u8::from_str_radix(&word[at..at + 2], HEXADECIMAL).expect("two hexadecimal digits are an octet");
        Ok((0..word.len()).step_by(2).map(octet).collect())
    }

    /// Nothing follows.
    pub fn end(&mut self) -> Result<(), String> {
        match self.word() {
            None => Ok(()),
            Some(word) => Err(format!("'{word}' is one word too many")),
        }
    }
}

/// A word as a number up to the greatest, written in digits alone.
pub fn number<Number: FromStr + PartialOrd + Display>(word: &str, what: &str, greatest: Number) -> Result<Number, String> {
    let digits = word.bytes().all(|octet| octet.is_ascii_digit());
    let number = word.parse().ok().filter(|number| digits && *number <= greatest);
    number.ok_or_else(|| format!("'{word}' is not {what}, which is a number from 0 to {greatest}"))
}
