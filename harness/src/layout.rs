//! Where each field of a port stands in the octets of record, register block and memory, how it is read and written, and what it is called in a
//! report.
//! Numbers stand high octet first.

use crate::model::octets::{MEMORY_OCTETS, PORT_OCTETS, RECORD_OCTETS};
use crate::model::port::{BEST_EFFORT, MARK_YES, NOT_DRAINING, QUEUES, QUEUE_PLACES, STREAMS};

/// The open mark in the record, one octet.
pub const OPEN: usize = 0;
/// The number of the prior queue in the record, one octet.
pub const PRIOR: usize = 1;
/// K in the record, one octet.
pub const DELAY: usize = 2;
/// L in the record, two octets.
pub const LINK: usize = 6;
/// W in the record, four octets.
pub const WAITS: usize = 8;
/// Where the entries of the queues begin in the record.
const QUEUE_ENTRIES: usize = 16;
/// The octets of a queue's entry: start, then count.
const QUEUE_ENTRY: usize = 4;
/// Where the entries of the queues end in the record.
const QUEUE_ENTRIES_END: usize = QUEUE_ENTRIES + QUEUE_ENTRY * QUEUES;
/// Where the entries of the streams begin in the record.
const STREAM_ENTRIES: usize = 64;
/// The octets of a stream's entry.
pub const STREAM_ENTRY: usize = 16;

/// The reserved mark in a stream's entry, one octet.
pub const RESERVED: usize = 0;
/// The place in a stream's entry, one octet.
pub const PLACE: usize = 1;
/// Left in a stream's entry, two octets.
pub const LEFT: usize = 2;
/// P in a stream's entry, two octets.
pub const PERMITTED: usize = 4;
/// The draining count in a stream's entry, one octet.
pub const DRAINING: usize = 6;
/// The bound mark in a stream's entry, one octet.
pub const BOUND: usize = 7;
/// The VID in a stream's entry, two octets.
pub const VID: usize = 8;
/// The address in a stream's entry, six octets; it follows the VID.
pub const ADDRESS: usize = 10;
/// Where a binding, VID and address, ends in a stream's entry.
pub const BINDING_END: usize = 16;

/// The mark of the flag discard in the register block, one octet.
pub const FLAG_DISCARD: usize = 0;
/// The mark of the flag purge in the register block, one octet.
pub const FLAG_PURGE: usize = 1;
/// The mark of the flag nothing to send in the register block, one octet.
pub const FLAG_NOTHING: usize = 2;
/// The interrupt mask in the register block, four octets.
pub const BLOCK_MASK: usize = 4;
/// The count of frames sent in the register block, four octets.
pub const SENT: usize = 8;
/// The choice of a stream in the register block, four octets.
pub const CHOICE: usize = 12;
/// Where the counts of the streams begin in the register block.
const STREAM_COUNTS: usize = 16;
/// The octets of a stream's counts.
const COUNTS_ENTRY: usize = 8;
/// The count of frames accepted in a stream's counts, four octets.
pub const ACCEPTED: usize = 0;
/// The count of discards in a stream's counts, four octets.
pub const DISCARDED: usize = 4;

/// The octets of a frame's place in memory.
const FRAME: usize = 8;
/// The stream at a frame's place, two octets.
pub const FRAME_STREAM: usize = 0;
/// The charge at a frame's place, two octets.
pub const FRAME_CHARGE: usize = 2;
/// The tag at a frame's place, four octets.
pub const FRAME_TAG: usize = 4;

/// Where the start of a queue stands in the record.
#[inline(always)]
pub fn start(queue: usize) -> usize {
    QUEUE_ENTRIES + QUEUE_ENTRY * queue
}

/// Where the count of a queue stands in the record.
#[inline(always)]
pub fn count(queue: usize) -> usize {
    start(queue) + 2
}

/// Where the entry of a stream stands in the record.
#[inline(always)]
pub fn entry(stream: usize) -> usize {
    STREAM_ENTRIES + STREAM_ENTRY * stream
}

/// Where the counts of a stream stand in the register block.
#[inline(always)]
pub fn counts(stream: usize) -> usize {
    STREAM_COUNTS + COUNTS_ENTRY * stream
}

/// Where an octet of the register block stands in a lent port: the block follows the record.
#[inline(always)]
pub fn in_block(at: usize) -> usize {
    RECORD_OCTETS + at
}

/// Where the frame stands in memory that is so many places ahead of a queue's start.
#[inline(always)]
pub fn frame(queue: usize, start: usize, ahead: usize) -> usize {
    FRAME * (QUEUE_PLACES * queue + (start + ahead) % QUEUE_PLACES)
}

/// Reads a number of two octets.
pub fn two(octets: &[u8], at: usize) -> u32 {
    u32::from(octets[at]) << 8 | u32::from(octets[at + 1])
}

/// Writes a number of two octets, which must hold it.
pub fn put_two(octets: &mut [u8], at: usize, number: u32) {
    let number = u16::try_from(number).expect("two octets hold the number");
    octets[at..at + 2].copy_from_slice(&number.to_be_bytes());
}

/// Reads a number of four octets.
pub fn four(octets: &[u8], at: usize) -> u32 {
    two(octets, at) << 16 | two(octets, at + 2)
}

/// Writes a number of four octets.
pub fn put_four(octets: &mut [u8], at: usize, number: u32) {
    octets[at..at + 4].copy_from_slice(&number.to_be_bytes());
}

/// Whether a stream is reserved.
pub fn is_reserved(record: &[u8], stream: usize) -> bool {
    record[entry(stream) + RESERVED] == MARK_YES
}

/// Whether a stream drains.
pub fn is_draining(record: &[u8], stream: usize) -> bool {
    is_reserved(record, stream) && record[entry(stream) + DRAINING] != NOT_DRAINING
}

/// R, the sum of the reserved streams' P.
pub fn permitted_sum(record: &[u8]) -> u32 {
    let reserved = (0..STREAMS).filter(|&stream| is_reserved(record, stream));
    reserved.map(|stream| two(record, entry(stream) + PERMITTED)).sum()
}

/// K × (L − R), 0 where R is above L, in a record of any content.
pub fn best_effort_limit(record: &[u8]) -> u64 {
    let unreserved = two(record, LINK).saturating_sub(permitted_sum(record));
    u64::from(record[DELAY]) * u64::from(unreserved)
}

/// W with a charge more.
pub fn waits_with(record: &[u8], charge: u32) -> u64 {
    u64::from(four(record, WAITS)) + u64::from(charge)
}

/// What an octet of a lent port, record and register block, belongs to, for a report.
pub fn record_field(at: usize) -> String {
    match at {
        OPEN => "open mark".into(),
        PRIOR => "prior".into(),
        DELAY => "K".into(),
        LINK..=7 => "L".into(),
        WAITS..=11 => "W".into(),
        QUEUE_ENTRIES..QUEUE_ENTRIES_END => queue_field(at - QUEUE_ENTRIES),
        STREAM_ENTRIES..RECORD_OCTETS => stream_field(at - STREAM_ENTRIES),
        RECORD_OCTETS..PORT_OCTETS => block_field(at - RECORD_OCTETS),
        PORT_OCTETS.. => "past the register block".into(),
        _ => "spare".into(),
    }
}

/// What an octet of the queues' entries belongs to.
fn queue_field(at: usize) -> String {
    let field = if at % QUEUE_ENTRY < 2 { "start" } else { "count" };
    format!("{field} of queue {}", at / QUEUE_ENTRY)
}

/// What an octet of the streams' entries belongs to.
fn stream_field(at: usize) -> String {
    let field = match at % STREAM_ENTRY {
        RESERVED => "reserved mark",
        PLACE => "place",
        LEFT..PERMITTED => "left",
        PERMITTED..=5 => "P",
        DRAINING => "draining count",
        BOUND => "bound mark",
        VID..ADDRESS => "VID",
        _ => "address",
    };
    format!("{field} of stream {}", at / STREAM_ENTRY)
}

/// What an octet of the register block belongs to.
fn block_field(at: usize) -> String {
    match at {
        FLAG_DISCARD => "flag discard".into(),
        FLAG_PURGE => "flag purge".into(),
        FLAG_NOTHING => "flag nothing to send".into(),
        BLOCK_MASK..=7 => "interrupt mask".into(),
        SENT..CHOICE => "count of frames sent".into(),
        CHOICE..STREAM_COUNTS => "choice of a stream".into(),
        STREAM_COUNTS.. => count_field(at - STREAM_COUNTS),
        _ => "spare in the register block".into(),
    }
}

/// What an octet of the streams' counts belongs to.
fn count_field(at: usize) -> String {
    let field = if at % COUNTS_ENTRY < DISCARDED { "frames accepted" } else { "discards" };
    format!("count of {field} of stream {}", at / COUNTS_ENTRY)
}

/// What an octet of the memory belongs to, for a report.
pub fn memory_field(at: usize) -> String {
    if at >= MEMORY_OCTETS {
        return "past the memory".into();
    }
    let field = match at % FRAME {
        FRAME_STREAM..FRAME_CHARGE => "stream",
        FRAME_CHARGE..FRAME_TAG => "charge",
        _ => "tag",
    };
    let queue = at / FRAME / QUEUE_PLACES;
    let which = if queue == BEST_EFFORT { "best effort".into() } else { format!("queue {queue}") };
    format!("{field} at place {} of {which}", at / FRAME % QUEUE_PLACES)
}
