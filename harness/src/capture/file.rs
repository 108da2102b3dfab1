//! The octets of a capture file, record by record.

use crate::call::Call;
use crate::model::capture::{
    kind, FIRST_INDICES_AT, KIND_AT, LETTERS, MOST_OCTETS, NEXT_INDEX_AT, NO_STREAM, NUMBER_A_AT, NUMBER_B_AT, PORTS, RECORD_OCTETS,
    STREAM_AT, STREAM_OF_BEST_EFFORT,
};
use crate::model::octets::TWO;

/// How many records the longest capture has after record 0.
pub const MOST_RECORDS: usize = MOST_OCTETS / RECORD_OCTETS - 1;

/// The greatest index that a record can hold.
pub const LAST_INDEX: u32 = u16::MAX as u32;

/// The octets of one record.
pub type Record = [u8; RECORD_OCTETS];

/// Record 0 with the first indices of ports 0 to 3.
pub fn header(first: [u16; PORTS]) -> Record {
    let mut record = Record::default();
    record[..LETTERS.len()].copy_from_slice(&LETTERS);
    for (port, index) in first.into_iter().enumerate() {
        put(&mut record, FIRST_INDICES_AT + TWO * port, &index.to_be_bytes());
    }
    record
}

/// The record of an event, with its next index.
pub fn record(event: &Call, next: u16) -> Record {
    let (stream, a, b) = match *event {
        Call::Open { link, delay } => (NO_STREAM, link, delay),
        Call::Reserve { stream, permitted } => (stream, permitted, 0),
        Call::Withdraw { stream } => (stream, 0, 0),
        Call::Arrive { stream, charge, tag } => (stream, charge, tag),
        Call::BestEffort { charge, tag } => (STREAM_OF_BEST_EFFORT, charge, tag),
        Call::Tick | Call::Transmit => (NO_STREAM, 0, 0),
        Call::Bind { .. } | Call::Frame { .. } => unreachable!("no record of a capture is a Bind or a Frame"),
        Call::ReadRegister { .. } | Call::WriteRegister { .. } => unreachable!("no record of a capture names a register"),
        Call::Lookup { .. } | Call::StreamCounts { .. } => unreachable!("no record of a capture asks of a port"),
    };
    let mut record = Record::default();
    record[KIND_AT] = kind(event);
    record[STREAM_AT] = stream;
    put_next_index(&mut record, next);
    put(&mut record, NUMBER_A_AT, &a.to_be_bytes());
    put(&mut record, NUMBER_B_AT, &b.to_be_bytes());
    record
}

/// The capture of one chain of events, at whose front those of ports 0 to 3 start of which it is said.
pub fn chain(starts: [bool; PORTS], events: &[Call]) -> Vec<u8> {
    let first = starts.map(|starts| u16::from(starts && !events.is_empty()));
    let next = |before: usize| if before + 1 < events.len() { before + 2 } else { 0 };
    let records = events.iter().enumerate().flat_map(|(before, event)| record(event, next(before) as u16));
    header(first).into_iter().chain(records).collect()
}

/// Writes the next index into a record.
pub fn put_next_index(record: &mut [u8], index: u16) {
    put(record, NEXT_INDEX_AT, &index.to_be_bytes());
}

/// Writes octets into a record.
fn put(record: &mut [u8], at: usize, octets: &[u8]) {
    record[at..at + octets.len()].copy_from_slice(octets);
}
