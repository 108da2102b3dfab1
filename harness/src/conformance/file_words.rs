//! A capture file in words, for a reader who looks why it is refused: its header and records, and what is wrong there.

use crate::call::hexadecimal;
use crate::model::capture::{
    first_index, next_index, Refused, BEST_EFFORT, KIND_AT, LETTERS, MOST_OCTETS, NO_STREAM, NUMBER_A_AT, NUMBER_B_AT, OPEN, PORTS,
    RECORD_OCTETS, STREAM_AT, STREAM_OF_BEST_EFFORT, TICK, TRANSMIT, WITHDRAW, ZEROS_AT,
};
use crate::model::octets::{number, FOUR};
use crate::model::refusal::{CAPTURE_HEADER, CAPTURE_INDEX, CAPTURE_LENGTH, CAPTURE_RECORD};

/// What stands at an index of a file, in lines: its length and header for 0, otherwise a record and the chains on which it is.
pub fn at(octets: &[u8], index: usize) -> Vec<String> {
    let records = octets.len() / RECORD_OCTETS;
    match record_at(octets, index) {
        None => vec![format!("the file has {} octets and no record {index}", octets.len())],
        Some(header) if index == 0 => {
            vec![format!("the file has {} octets, records 0 to {}", octets.len(), records - 1), fields_of_header(header)]
        }
        Some(record) => vec![format!("record {index} of 0 to {}, {}", records - 1, chains(octets, index)), fields_of_record(record)],
    }
}

/// The record of an index, if the file has it whole.
fn record_at(octets: &[u8], index: usize) -> Option<&[u8]> {
    octets.chunks_exact(RECORD_OCTETS).nth(index)
}

/// The fields of a header.
fn fields_of_header(header: &[u8]) -> String {
    let first = [0, 1, 2, 3].map(|port| first_index(header, port).to_string()).join(" ");
    let letters = String::from_utf8_lossy(&header[..LETTERS.len()]).escape_debug().to_string();
    format!("{}: letters {letters}, first indices {first}, zero octets {}", hexadecimal(header), hexadecimal(&header[ZEROS_AT..]))
}

/// The fields of a record.
fn fields_of_record(record: &[u8]) -> String {
    let (kind, stream, next, zeros) = (record[KIND_AT], record[STREAM_AT], next_index(record), hexadecimal(&record[ZEROS_AT..]));
    let (a, b) = (number(record, NUMBER_A_AT, FOUR), number(record, NUMBER_B_AT, FOUR));
    format!("{}: kind {kind}, stream octet {stream}, next index {next}, A {a}, B {b}, zero octets {zeros}", hexadecimal(record))
}

/// On which ports' chains a record is.
fn chains(octets: &[u8], index: usize) -> String {
    let on: Vec<String> = (0..PORTS).filter(|&port| leads_to(octets, port, index)).map(|port| port.to_string()).collect();
    match on.len() {
        0 => String::from("on no chain"),
        1 => format!("on the chain of port {}", on[0]),
        _ => format!("on the chains of ports {}", on.join(" ")),
    }
}

/// Whether a port's chain leads to a record, as far as its indices rise and there are records.
fn leads_to(octets: &[u8], port: usize, index: usize) -> bool {
    let mut at = first_index(octets, port);
    while at != 0 && at < index {
        let Some(next) = record_at(octets, at).map(next_index) else { return false };
        if next <= at {
            return false;
        }
        at = next;
    }
    at == index
}

/// Why the rule refuses a file as it does, in lines.
pub fn why(octets: &[u8], refused: &Refused) -> Vec<String> {
    vec![
        String::from("why the rule says so:"),
        format!("  {}", wrong(octets, refused)),
        String::from("  the checks run 21, 22, then port after port: its first index, 23, and each record of its chain, 24 and then 23"),
    ]
}

/// What is wrong with a file that is refused.
fn wrong(octets: &[u8], refused: &Refused) -> String {
    let record = record_at(octets, refused.index).unwrap_or_default();
    match (refused.refusal, refused.index) {
        (CAPTURE_LENGTH, _) if octets.len() > MOST_OCTETS => format!("{} octets are more than {MOST_OCTETS}", octets.len()),
        (CAPTURE_LENGTH, _) if octets.len() < RECORD_OCTETS => format!("{} octets are fewer than {RECORD_OCTETS}", octets.len()),
        (CAPTURE_LENGTH, _) => format!("{} octets are no multiple of {RECORD_OCTETS}", octets.len()),
        (CAPTURE_HEADER, _) if !octets.starts_with(&LETTERS) => String::from("the letters are not EPCH"),
        (CAPTURE_HEADER, _) => String::from("the zero octets of the header are not all zero"),
        (CAPTURE_INDEX, 0) => wrong_first_index(octets),
        (CAPTURE_INDEX, index) => wrong_next_index(next_index(record), index, octets.len() / RECORD_OCTETS),
        (CAPTURE_RECORD, _) => wrong_record(record),
        (refusal, _) => unreachable!("{refusal} is no refusal of a file"),
    }
}

/// Which first index is wrong.
fn wrong_first_index(octets: &[u8]) -> String {
    let last = octets.len() / RECORD_OCTETS - 1;
    let port = (0..PORTS).find(|&port| first_index(octets, port) > last).expect("a first index is wrong");
    format!("the first index of port {port}, {}, is past the last record, {last}", first_index(octets, port))
}

/// How a next index is wrong.
fn wrong_next_index(next: usize, own: usize, records: usize) -> String {
    match next > own {
        true => format!("the next index, {next}, is past the last record, {}", records - 1),
        false => format!("the next index, {next}, is neither 0 nor above the record's own, {own}"),
    }
}

/// What is wrong with a record, as far as its kind is one.
fn wrong_record(record: &[u8]) -> String {
    let (kind, stream) = (record[KIND_AT], record[STREAM_AT]);
    let due = match kind {
        OPEN | TICK | TRANSMIT => Some(NO_STREAM),
        BEST_EFFORT => Some(STREAM_OF_BEST_EFFORT),
        _ => None,
    };
    match due {
        _ if !(OPEN..=WITHDRAW).contains(&kind) => format!("kind {kind} is none of {OPEN} to {WITHDRAW}"),
        Some(due) if stream != due => format!("the stream octet of kind {kind} is {stream} and not {due}"),
        _ if record[ZEROS_AT..].iter().any(|&octet| octet != 0) => String::from("its zero octets are not all zero"),
        _ => format!("an unused number of kind {kind} is not 0"),
    }
}
