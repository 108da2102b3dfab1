//! From a capture to its text form: every file of octets whatever has one.

use std::array;
use std::fmt::Write;

use crate::capture::file;
use crate::capture::words::{CHAIN, FIRST, HEADER, NEXT, OCTETS, PORT};
use crate::model::capture::{event, first_index, next_index, PORTS, RECORD_OCTETS};

/// The text form of a file.
pub fn text(octets: &[u8]) -> String {
    let (header, rest) = octets.split_at(octets.len().min(RECORD_OCTETS));
    let records: Vec<&[u8]> = rest.chunks_exact(RECORD_OCTETS).collect();
    let begins: Vec<bool> = (0..records.len()).map(|place| place == 0 || next_index(records[place - 1]) != place + 1).collect();
    let mut text = String::new();
    let first = first_indices(header);
    if first.is_none() {
        line(&mut text, HEADER, &digits(header));
    }
    let first = first.unwrap_or_default();
    first_lines(&mut text, &first, &begins);
    record_lines(&mut text, &first, &records, &begins);
    let beyond = &rest[records.len() * RECORD_OCTETS..];
    if !beyond.is_empty() {
        line(&mut text, OCTETS, &digits(beyond));
    }
    text
}

/// A line for each first index at which no run begins.
fn first_lines(text: &mut String, first: &[usize; PORTS], begins: &[bool]) {
    for (port, &index) in first.iter().enumerate().filter(|(_, &index)| index > 0 && begins.get(index - 1) != Some(&true)) {
        line(text, FIRST, &format!(" {port} {index}"));
    }
}

/// The line of each record, and that of each run before its front.
fn record_lines(text: &mut String, first: &[usize; PORTS], records: &[&[u8]], begins: &[bool]) {
    for (place, record) in records.iter().enumerate() {
        if begins[place] {
            run_line(text, first, place + 1);
        }
        let next = if begins.get(place + 1) == Some(&false) { place + 2 } else { 0 };
        record_line(text, record, next);
    }
}

/// The first indices of a header without fault, of any other nothing: it is written out in digits.
fn first_indices(header: &[u8]) -> Option<[usize; PORTS]> {
    if header.len() < RECORD_OCTETS {
        return None;
    }
    let first = array::from_fn(|port| first_index(header, port));
    Some(first).filter(|first| file::header(first.map(|index| index as u16)) == header)
}

/// The line before a run of records: the ports that start at its front, or that none does.
fn run_line(text: &mut String, first: &[usize; PORTS], front: usize) {
    let ports: String = (0..PORTS).filter(|&port| first[port] == front).map(|port| format!(" {port}")).collect();
    line(text, if ports.is_empty() { CHAIN } else { PORT }, &ports);
}

/// The line of a record: its event, with the next index unless that is the one given, or its octets in digits.
fn record_line(text: &mut String, record: &[u8], understood: usize) {
    match event(record) {
        None => line(text, OCTETS, &digits(record)),
        Some(event) if next_index(record) == understood => line(text, &event.to_string(), ""),
        Some(event) => line(text, &event.to_string(), &format!(" {NEXT} {}", next_index(record))),
    }
}

/// Adds a line.
fn line(text: &mut String, word: &str, rest: &str) {
    text.push_str(word);
    text.push_str(rest);
    text.push('\n');
}

/// Octets as hexadecimal digits, two for each, behind a space; nothing for no octet.
fn digits(octets: &[u8]) -> String {
    let space = if octets.is_empty() { "" } else { " " };
    octets.iter().fold(String::from(space), |mut digits, octet| {
        write!(digits, "{octet:02x}").expect("a string takes every digit");
        digits
    })
}
