//! A call on a lent port of any length and content: the state read from its octets, the rule run on it, the state written back; and the two calls that
//! only ask of a port.

use super::fitness;
use super::frame::Pair;
use super::lookup::lookup;
use super::octets::{self, PORT_OCTETS};
use super::port::{BEST_EFFORT_STREAM, STREAMS};
use super::refusal;
use super::registers;
use super::rule;
use crate::call::{Call, Given, Reply};

/// Plays one call on a lent port, record and register block, and memory of any length and content: 26 of a register's offset, "before 18"; "Checks
/// run 18, 19", then the call's own, then its rule. A lookup and a question for a stream's counts take a record of any content, and no memory.
pub fn call(call: &Given, record: &mut [u8], memory: &mut [u8]) -> Reply {
    match *call {
        Call::Lookup { address, vid } => return looked_up(record, &Pair { address: *address, vid }),
        Call::StreamCounts { stream } => return stream_counts(record, usize::from(stream)),
        _ => (),
    }
    if registers::offset_is_wrong(call) {
        return Reply::refused(refusal::REGISTER_OFFSET);
    }
    if fitness::memory_short(memory) {
        return Reply::refused(refusal::MEMORY_SHORT);
    }
    if !fitness::unfit(record, memory).is_empty() {
        return Reply::refused(refusal::RECORD_UNFIT);
    }
    let mut port = octets::read(record, memory);
    let reply = rule::step(call, &mut port);
    if matches!(call, Call::Open { .. }) && reply.refusal == 0 {
        octets::clear_block(record);
    }
    octets::write(&port, record, memory);
    reply
}

/// The lookup as a host calls it, on a port of any content: it replies the stream, or 255 where a frame of the pair is best effort, and the number of
/// octets compared. A lent port that is too short is 19, and nothing else is refused.
fn looked_up(port: &[u8], pair: &Pair) -> Reply {
    if port.len() < PORT_OCTETS {
        return Reply::refused(refusal::RECORD_UNFIT);
    }
    let found = lookup(&octets::streams(port), pair);
    let stream = match found.stream {
        Some(number) => number as u32,
        None => BEST_EFFORT_STREAM,
    };
    Reply::granted(stream, found.compared)
}

/// The counts of a stream as support asks for them, on a port of any content: it replies the accepted and the discarded count, whatever the choice
/// is. A lent port that is too short is 19, then a stream above 63 is 5, and nothing else is refused.
fn stream_counts(port: &[u8], stream: usize) -> Reply {
    match (port.len(), stream) {
        (..PORT_OCTETS, _) => Reply::refused(refusal::RECORD_UNFIT),
        (_, STREAMS..) => Reply::refused(refusal::STREAM_ABOVE),
        _ => {
            let counts = octets::counts(port, stream);
            Reply::granted(counts.accepted, counts.discarded)
        }
    }
}
