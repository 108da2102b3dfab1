//! The octet layout: reads a port from record, register block and memory, and writes it back. Numbers stand high octet first.

use std::collections::VecDeque;

use super::port::{Frame, Port, Queue, Stream, QUEUES, QUEUE_PLACES, STREAMS};
use super::registers::{Counts, Registers, FLAG_BITS};
use crate::call::ADDRESS_OCTETS;

/// The octets of the record, with which a lent port begins.
pub const RECORD_OCTETS: usize = 1_088;
/// The octets of the register block, which follows the record.
pub const BLOCK_OCTETS: usize = 528;
/// A lent port is at least this long, a record and a register block; octets past it are never read or written.
pub const PORT_OCTETS: usize = RECORD_OCTETS + BLOCK_OCTETS;
/// Memory is at least this long, 1,280 frame places; octets past it are never read or written.
pub const MEMORY_OCTETS: usize = QUEUES * QUEUE_PLACES * FRAME_OCTETS;

/// Where the open mark stands in the record, one octet.
const OPEN_AT: usize = 0;
/// Where prior stands in the record, one octet.
const PRIOR_AT: usize = 1;
/// Where K stands in the record, one octet.
const DELAY_AT: usize = 2;
/// Where L stands in the record, two octets.
const LINK_AT: usize = 6;
/// Where W stands in the record, four octets.
const WAITS_AT: usize = 8;

/// Where the entry of queue 0 stands in the record.
const QUEUE_ENTRIES_AT: usize = 16;
/// The octets of a queue's entry.
const QUEUE_ENTRY_OCTETS: usize = 4;
/// Where the start stands in a queue's entry, two octets.
const START_IN_ENTRY: usize = 0;
/// Where the count stands in a queue's entry, two octets.
const COUNT_IN_ENTRY: usize = 2;

/// Where the entry of stream 0 stands in the record.
const STREAM_ENTRIES_AT: usize = 64;
/// The octets of a stream's entry.
const STREAM_ENTRY_OCTETS: usize = 16;
/// Where the reserved mark stands in a stream's entry, one octet.
const RESERVED_IN_ENTRY: usize = 0;
/// Where the place stands in a stream's entry, one octet.
const PLACE_IN_ENTRY: usize = 1;
/// Where left stands in a stream's entry, two octets.
const LEFT_IN_ENTRY: usize = 2;
/// Where P stands in a stream's entry, two octets.
const PERMITTED_IN_ENTRY: usize = 4;
/// Where the draining count stands in a stream's entry, one octet.
const DRAINING_IN_ENTRY: usize = 6;
/// Where the bound mark stands in a stream's entry, one octet.
const BOUND_IN_ENTRY: usize = 7;
/// Where the VID stands in a stream's entry, two octets.
const VID_IN_ENTRY: usize = 8;
/// Where the address stands in a stream's entry, six octets.
const ADDRESS_IN_ENTRY: usize = 10;

/// Where the marks of the flags stand in the block, one octet each, in the order of their bits.
const FLAGS_IN_BLOCK: usize = 0;
/// Where the interrupt mask stands in the block, four octets.
const MASK_IN_BLOCK: usize = 4;
/// Where the count of frames sent stands in the block, four octets.
const SENT_IN_BLOCK: usize = 8;
/// Where the choice of a stream stands in the block, four octets.
const CHOICE_IN_BLOCK: usize = 12;
/// Where the counts of stream 0 stand in the block.
const COUNTS_IN_BLOCK: usize = 16;
/// The octets of a stream's counts.
const COUNTS_OCTETS: usize = 8;
/// Where the count of frames accepted stands in a stream's counts, four octets.
const ACCEPTED_IN_COUNTS: usize = 0;
/// Where the count of discards stands in a stream's counts, four octets.
const DISCARDED_IN_COUNTS: usize = 4;

/// The octets of a frame place.
const FRAME_OCTETS: usize = 8;
/// Where the stream stands in a frame place, two octets.
const STREAM_IN_FRAME: usize = 0;
/// Where the charge stands in a frame place, two octets.
const CHARGE_IN_FRAME: usize = 2;
/// Where the tag stands in a frame place, four octets.
const TAG_IN_FRAME: usize = 4;

/// The octets of a number of 16 bits.
pub const TWO: usize = 2;
/// The octets of a number of 32 bits.
pub const FOUR: usize = 4;
/// How many values an octet has.
const OCTET_VALUES: u32 = 256;

/// Reads a number of the given width, high octet first.
pub fn number(octets: &[u8], at: usize, width: usize) -> u32 {
    octets[at..at + width].iter().fold(0, |number, octet| number * OCTET_VALUES + u32::from(*octet))
}

/// Writes the low octets of a number, as many as the width says, high octet first.
fn put_number(octets: &mut [u8], at: usize, width: usize, value: u32) {
    octets[at..at + width].copy_from_slice(&value.to_be_bytes()[FOUR - width..]);
}

/// Where the entry of a queue stands in the record.
fn queue_entry(queue: usize) -> usize {
    QUEUE_ENTRIES_AT + QUEUE_ENTRY_OCTETS * queue
}

/// Where the entry of a stream stands in the record.
fn stream_entry(stream: usize) -> usize {
    STREAM_ENTRIES_AT + STREAM_ENTRY_OCTETS * stream
}

/// Where a place of a queue stands in memory: "starting at 256 times the queue's number".
fn frame_place(queue: usize, place: usize) -> usize {
    FRAME_OCTETS * (QUEUE_PLACES * queue + place)
}

/// Where the counts of a stream stand in the block.
fn counts_entry(stream: usize) -> usize {
    COUNTS_IN_BLOCK + COUNTS_OCTETS * stream
}

/// The open mark in the record.
pub fn open(record: &[u8]) -> u8 {
    record[OPEN_AT]
}

/// The number of the prior queue in the record.
pub fn prior(record: &[u8]) -> usize {
    usize::from(record[PRIOR_AT])
}

/// K in the record.
pub fn delay(record: &[u8]) -> u32 {
    u32::from(record[DELAY_AT])
}

/// L in the record.
pub fn link(record: &[u8]) -> u32 {
    number(record, LINK_AT, TWO)
}

/// W in the record.
pub fn waits(record: &[u8]) -> u32 {
    number(record, WAITS_AT, FOUR)
}

/// The start of a queue in the record.
pub fn start(record: &[u8], queue: usize) -> usize {
    number(record, queue_entry(queue) + START_IN_ENTRY, TWO) as usize
}

/// The count of a queue in the record.
pub fn count(record: &[u8], queue: usize) -> usize {
    number(record, queue_entry(queue) + COUNT_IN_ENTRY, TWO) as usize
}

/// The entry of a stream in the record.
fn stream(record: &[u8], stream: usize) -> Stream {
    let entry = stream_entry(stream);
    let mut address = [0; ADDRESS_OCTETS];
    address.copy_from_slice(&record[entry + ADDRESS_IN_ENTRY..entry + ADDRESS_IN_ENTRY + ADDRESS_OCTETS]);
    Stream {
        reserved: record[entry + RESERVED_IN_ENTRY],
        place: record[entry + PLACE_IN_ENTRY],
        left: number(record, entry + LEFT_IN_ENTRY, TWO),
        permitted: number(record, entry + PERMITTED_IN_ENTRY, TWO),
        draining: record[entry + DRAINING_IN_ENTRY],
        bound: record[entry + BOUND_IN_ENTRY],
        vid: number(record, entry + VID_IN_ENTRY, TWO),
        address,
    }
}

/// The entries of streams 0 to 63 in the record.
pub fn streams(record: &[u8]) -> Vec<Stream> {
    (0..STREAMS).map(|number| stream(record, number)).collect()
}

/// The frame at a place of a queue in memory.
fn frame(memory: &[u8], queue: usize, place: usize) -> Frame {
    let at = frame_place(queue, place);
    Frame {
        stream: number(memory, at + STREAM_IN_FRAME, TWO),
        charge: number(memory, at + CHARGE_IN_FRAME, TWO),
        tag: number(memory, at + TAG_IN_FRAME, FOUR),
    }
}

/// The frames that wait in a queue, oldest first, for a start of at most 255, a count of at most 256 and enough memory.
pub fn frames(record: &[u8], memory: &[u8], queue: usize) -> VecDeque<Frame> {
    let start = start(record, queue);
    (0..count(record, queue)).map(|waiting| frame(memory, queue, (start + waiting) % QUEUE_PLACES)).collect()
}

/// The register block of a port, the octets right after its record.
fn block(port: &[u8]) -> &[u8] {
    &port[RECORD_OCTETS..PORT_OCTETS]
}

/// The same, to be written.
fn block_mut(port: &mut [u8]) -> &mut [u8] {
    &mut port[RECORD_OCTETS..PORT_OCTETS]
}

/// The counts of a stream in the block.
pub fn counts(port: &[u8], stream: usize) -> Counts {
    let entry = counts_entry(stream);
    Counts {
        accepted: number(block(port), entry + ACCEPTED_IN_COUNTS, FOUR),
        discarded: number(block(port), entry + DISCARDED_IN_COUNTS, FOUR),
    }
}

/// The registers in the block.
fn registers(port: &[u8]) -> Registers {
    let block = block(port);
    let mut flags = [0; FLAG_BITS];
    flags.copy_from_slice(&block[FLAGS_IN_BLOCK..FLAGS_IN_BLOCK + FLAG_BITS]);
    Registers {
        flags,
        mask: number(block, MASK_IN_BLOCK, FOUR),
        sent: number(block, SENT_IN_BLOCK, FOUR),
        choice: number(block, CHOICE_IN_BLOCK, FOUR),
        counts: std::array::from_fn(|stream| counts(port, stream)),
    }
}

/// Writes the registers into the block.
fn write_registers(registers: &Registers, port: &mut [u8]) {
    let block = block_mut(port);
    block[FLAGS_IN_BLOCK..FLAGS_IN_BLOCK + FLAG_BITS].copy_from_slice(&registers.flags);
    put_number(block, MASK_IN_BLOCK, FOUR, registers.mask);
    put_number(block, SENT_IN_BLOCK, FOUR, registers.sent);
    put_number(block, CHOICE_IN_BLOCK, FOUR, registers.choice);
    for (stream, counts) in registers.counts.iter().enumerate() {
        put_number(block, counts_entry(stream) + ACCEPTED_IN_COUNTS, FOUR, counts.accepted);
        put_number(block, counts_entry(stream) + DISCARDED_IN_COUNTS, FOUR, counts.discarded);
    }
}

/// Writes zeros to the whole block, as opening does, also to its one octet that holds nothing.
pub fn clear_block(port: &mut [u8]) {
    block_mut(port).fill(0);
}

/// Reads the whole port from a record that is fit, its register block, and a memory that is long enough.
pub fn read(record: &[u8], memory: &[u8]) -> Port {
    let queue = |queue| Queue { start: start(record, queue), frames: frames(record, memory, queue) };
    Port {
        open: open(record),
        prior: prior(record),
        delay: delay(record),
        link: link(record),
        waits: waits(record),
        queues: (0..QUEUES).map(queue).collect(),
        streams: streams(record),
        registers: registers(record),
    }
}

/// Writes the whole port back: a field or a waiting frame that the rule left alone is written as it was read.
pub fn write(port: &Port, record: &mut [u8], memory: &mut [u8]) {
    record[OPEN_AT] = port.open;
    record[PRIOR_AT] = port.prior as u8;
    record[DELAY_AT] = port.delay as u8;
    put_number(record, LINK_AT, TWO, port.link);
    put_number(record, WAITS_AT, FOUR, port.waits);
    for (number, queue) in port.queues.iter().enumerate() {
        put_number(record, queue_entry(number) + START_IN_ENTRY, TWO, queue.start as u32);
        put_number(record, queue_entry(number) + COUNT_IN_ENTRY, TWO, queue.frames.len() as u32);
        for (waiting, frame) in queue.frames.iter().enumerate() {
            write_frame(frame, memory, number, (queue.start + waiting) % QUEUE_PLACES);
        }
    }
    for (number, stream) in port.streams.iter().enumerate() {
        write_stream(stream, record, number);
    }
    write_registers(&port.registers, record);
}

/// Writes the entry of a stream.
fn write_stream(stream: &Stream, record: &mut [u8], number: usize) {
    let entry = stream_entry(number);
    record[entry + RESERVED_IN_ENTRY] = stream.reserved;
    record[entry + PLACE_IN_ENTRY] = stream.place;
    put_number(record, entry + LEFT_IN_ENTRY, TWO, stream.left);
    put_number(record, entry + PERMITTED_IN_ENTRY, TWO, stream.permitted);
    record[entry + DRAINING_IN_ENTRY] = stream.draining;
    record[entry + BOUND_IN_ENTRY] = stream.bound;
    put_number(record, entry + VID_IN_ENTRY, TWO, stream.vid);
    record[entry + ADDRESS_IN_ENTRY..entry + ADDRESS_IN_ENTRY + ADDRESS_OCTETS].copy_from_slice(&stream.address);
}

/// Writes a frame to a place of a queue in memory.
fn write_frame(frame: &Frame, memory: &mut [u8], queue: usize, place: usize) {
    let at = frame_place(queue, place);
    put_number(memory, at + STREAM_IN_FRAME, TWO, frame.stream);
    put_number(memory, at + CHARGE_IN_FRAME, TWO, frame.charge);
    put_number(memory, at + TAG_IN_FRAME, FOUR, frame.tag);
}
