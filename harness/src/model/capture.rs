//! Capture files: document 01, "Capture file" and "Kinds", with kind 7 of document 02, "Withdraw a stream", and the capture writer's refusals, 21 to
//! 24, in their order.

use super::octets::{number, FOUR, TWO};
use super::refusal;
use crate::call::Call;

/// "16-octet records".
pub const RECORD_OCTETS: usize = 16;
/// The longest file: "21 file length not a multiple of 16, under 16 or over 65,536".
pub const MOST_OCTETS: usize = 65_536;

/// "the letters EPCH".
pub const LETTERS: [u8; 4] = *b"EPCH";
/// "first indices for ports 0 to 3".
pub const PORTS: usize = 4;
/// Where the four first indices stand in record 0, two octets each.
pub const FIRST_INDICES_AT: usize = 4;

/// Where the kind stands in a record, one octet.
pub const KIND_AT: usize = 0;
/// Where the stream stands in a record, one octet.
pub const STREAM_AT: usize = 1;
/// Where the next index stands in a record, two octets.
pub const NEXT_INDEX_AT: usize = 2;
/// Where number A stands in a record, four octets.
pub const NUMBER_A_AT: usize = 4;
/// Where number B stands in a record, four octets.
pub const NUMBER_B_AT: usize = 8;
/// Where the "four zero octets" stand in every record, record 0 among them.
pub const ZEROS_AT: usize = 12;
/// "four zero octets".
const ZEROS: [u8; 4] = [0; 4];

/// "1 open (A = L, B = K)".
pub const OPEN: u8 = 1;
/// "2 reserve (A = P)".
pub const RESERVE: u8 = 2;
/// "3 arrive (A charge, B tag)".
pub const ARRIVE: u8 = 3;
/// "4 best effort (A charge, B tag)".
pub const BEST_EFFORT: u8 = 4;
/// "5 tick".
pub const TICK: u8 = 5;
/// "6 transmit".
pub const TRANSMIT: u8 = 6;
/// A withdrawal: "in captures it is kind 7, with any stream octet and A and B 0".
pub const WITHDRAW: u8 = 7;

/// "The stream octet is any value in 2 and 3, 255 in 4, else 0": that of best effort.
pub const STREAM_OF_BEST_EFFORT: u8 = 255;
/// The stream octet of the kinds that have no stream.
pub const NO_STREAM: u8 = 0;

/// A file that is refused: the number, and "the record index (0 for the whole file or the header)".
#[derive(Clone, Copy, Debug, PartialEq, Eq)]
pub struct Refused {
    pub refusal: u8,
    pub index: usize,
}

/// The events of ports 0 to 3, each in the order of its chain, of a file that all checks pass.
pub fn events(capture: &[u8]) -> Result<Vec<Vec<Call>>, Refused> {
    if capture.len() % RECORD_OCTETS != 0 || capture.len() < RECORD_OCTETS || capture.len() > MOST_OCTETS {
        return Err(Refused { refusal: refusal::CAPTURE_LENGTH, index: 0 });
    }
    let header = &capture[..RECORD_OCTETS];
    if !header.starts_with(&LETTERS) || header[ZEROS_AT..] != ZEROS {
        return Err(Refused { refusal: refusal::CAPTURE_HEADER, index: 0 });
    }
    (0..PORTS).map(|port| chain(capture, first_index(header, port))).collect()
}

/// The events of the chain from a first index on: the first index is tested "as a port's walk begins", and "24 before 23 at a record".
fn chain(capture: &[u8], first: usize) -> Result<Vec<Call>, Refused> {
    let count = capture.len() / RECORD_OCTETS;
    if first >= count {
        return Err(Refused { refusal: refusal::CAPTURE_INDEX, index: 0 });
    }
    let mut events = Vec::new();
    let mut index = first;
    while index != 0 {
        let record = &capture[index * RECORD_OCTETS..][..RECORD_OCTETS];
        match event(record) {
            Some(event) => events.push(event),
            None => return Err(Refused { refusal: refusal::CAPTURE_RECORD, index }),
        }
        // "A next index is 0, or above its record's own index and below the record count"
        let next = next_index(record);
        if next != 0 && (next <= index || next >= count) {
            return Err(Refused { refusal: refusal::CAPTURE_INDEX, index });
        }
        index = next;
    }
    Ok(events)
}

/// The first index of a port in record 0.
pub fn first_index(header: &[u8], port: usize) -> usize {
    number(header, FIRST_INDICES_AT + TWO * port, TWO) as usize
}

/// The next index of a record.
pub fn next_index(record: &[u8]) -> usize {
    number(record, NEXT_INDEX_AT, TWO) as usize
}

/// The event of a record, or none where 24 refuses it: "kind, stream octet, unused number or zero octets".
pub fn event(record: &[u8]) -> Option<Call> {
    if record[ZEROS_AT..] != ZEROS {
        return None;
    }
    let stream = record[STREAM_AT];
    let a = number(record, NUMBER_A_AT, FOUR);
    let b = number(record, NUMBER_B_AT, FOUR);
    match record[KIND_AT] {
        OPEN if stream == NO_STREAM => Some(Call::Open { link: a, delay: b }),
        RESERVE if b == 0 => Some(Call::Reserve { stream, permitted: a }),
        ARRIVE => Some(Call::Arrive { stream, charge: a, tag: b }),
        BEST_EFFORT if stream == STREAM_OF_BEST_EFFORT => Some(Call::BestEffort { charge: a, tag: b }),
        TICK if stream == NO_STREAM && a == 0 && b == 0 => Some(Call::Tick),
        TRANSMIT if stream == NO_STREAM && a == 0 && b == 0 => Some(Call::Transmit),
        WITHDRAW if a == 0 && b == 0 => Some(Call::Withdraw { stream }),
        _ => None,
    }
}

/// The kind of an event.
pub fn kind(event: &Call) -> u8 {
    match event {
        Call::Open { .. } => OPEN,
        Call::Reserve { .. } => RESERVE,
        Call::Arrive { .. } => ARRIVE,
        Call::BestEffort { .. } => BEST_EFFORT,
        Call::Tick => TICK,
        Call::Transmit => TRANSMIT,
        Call::Withdraw { .. } => WITHDRAW,
        Call::Bind { .. } | Call::Frame { .. } => unreachable!("no kind of event is a Bind or a Frame"),
        Call::ReadRegister { .. } | Call::WriteRegister { .. } => unreachable!("no kind of event names a register"),
        Call::Lookup { .. } | Call::StreamCounts { .. } => unreachable!("no kind of event asks of a port"),
    }
}
