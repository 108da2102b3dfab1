//! The outside program's `replay`: "All checks of the file come before any event", then port after port, each on a fresh port of the model.

use std::fmt::Write as _;
use std::io::{self, Read, Write};

use super::capture::{self, Refused, MOST_OCTETS};
use super::port::Port;
use super::rule;
use crate::call::Call;

/// "The program `replay` reads a capture from standard input", and prints what it prints to standard output.
pub fn program() -> io::Result<()> {
    let mut octets = Vec::new();
    // One octet more than the longest capture shows that a file is too long.
    io::stdin().lock().take(MOST_OCTETS as u64 + 1).read_to_end(&mut octets)?;
    io::stdout().lock().write_all(replay(&octets).as_bytes())
}

/// What `replay` prints of a capture: "one line per event", or of a bad file only `refused N I`.
pub fn replay(octets: &[u8]) -> String {
    match capture::events(octets) {
        Ok(ports) => played(&ports),
        Err(Refused { refusal, index }) => format!("refused {refusal} {index}\n"),
    }
}

/// The lines of all ports: "port, event number from 1, kind, refusal or 0, two reply numbers".
fn played(ports: &[Vec<Call>]) -> String {
    let mut lines = String::new();
    for (number, events) in ports.iter().enumerate() {
        play(&mut lines, number, events, &mut Port::closed());
    }
    lines
}

/// Plays the events of the port of a number, and adds their lines.
fn play(lines: &mut String, number: usize, events: &[Call], port: &mut Port) {
    for (before, event) in events.iter().enumerate() {
        let reply = rule::step(&event.given(), port);
        writeln!(lines, "{number} {} {} {reply}", before + 1, capture::kind(event)).expect("a string takes every line");
    }
}
