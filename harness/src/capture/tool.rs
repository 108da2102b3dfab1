//! The tool that turns the text form of a capture into the capture, and a capture into its text form. Status 0 says that it did, 1 that the text is
//! bad or that input or output failed, 2 that a word of the command line is wrong. Of a bad text nothing is written.

use std::io::{Read, Write};

use crate::capture::{reading, writing};
use crate::command_line::WRONG_WORDS;

/// How the tool is called.
const USAGE: &str = "usage: capture write < TEXT > CAPTURE, or capture read < CAPTURE > TEXT";
/// The status after text or octets were turned.
const TURNED: u8 = 0;
/// The status after a bad text, or input or output that failed.
const FAILED: u8 = 1;

/// What text or octets become, or what is wrong.
type Turn = fn(&[u8]) -> Result<Vec<u8>, String>;

/// Does what the words ask, and tells what is wrong; the status.
pub fn run(words: &[String], input: &mut dyn Read, output: &mut dyn Write, errors: &mut dyn Write) -> u8 {
    let (status, what) = match turn(words) {
        None => (WRONG_WORDS, String::from(USAGE)),
        Some(turn) => match turned(turn, input, output) {
            Ok(()) => return TURNED,
            Err(why) => (FAILED, why),
        },
    };
    // Where not even this can be written, the status says it.
    let _ = writeln!(errors, "{what}");
    status
}

/// What the words ask for, if they ask for anything.
fn turn(words: &[String]) -> Option<Turn> {
    match words {
        [word] if word == "write" => Some(|text| writing::octets(text).map_err(|bad| bad.to_string())),
        [word] if word == "read" => Some(|octets| Ok(reading::text(octets).into_bytes())),
        _ => None,
    }
}

/// Reads all of the input, turns it, and writes what it became.
fn turned(turn: Turn, input: &mut dyn Read, output: &mut dyn Write) -> Result<(), String> {
    let mut octets = Vec::new();
    input.read_to_end(&mut octets).map_err(|why| format!("standard input: {why}"))?;
    let other = turn(&octets)?;
    output.write_all(&other).and_then(|()| output.flush()).map_err(|why| format!("standard output: {why}"))
}
