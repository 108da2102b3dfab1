//! The quick calls as plain Rust in place, on the layout of the record and the memory: what the quick calls are held against on records of any
//! content, and what the benchmark measures them beside. Written from their definition (`crates/port/specs/Quick.antt` and the steps below it), which
//! is total: the queue in a role is (prior + role) modulo 4 for every prior, a ring's place is taken modulo 256 for every start, a place that
//! is none of the three goes by the same sentences, a draining count of any size falls by one at a tick, W falls to no less than 0, and so does what
//! L leaves beside R; of streams that are bound to one pair the first counts, reserved or not. What a call's reply does to the register block is
//! written from document 02, "Register block" and "Counts per stream", and their reading; the lookup from "Compare the VLAN id first" and its reading.

mod bindings;
mod fields;
mod registers;
mod traffic;

use crate::call::{Call, Given, Reply, ADDRESS_OCTETS};
use crate::layout::{self, entry, BOUND, DELAY, DRAINING, LEFT, LINK, OPEN, PERMITTED, PLACE, PRIOR, RESERVED, WAITS};
use crate::model::octets::{MEMORY_OCTETS, PORT_OCTETS, RECORD_OCTETS};
use crate::model::port::{BEST_EFFORT, CURRENT, DELAYS, DRAINING_TICKS, LEAST_PERMITTED, LINKS, MARK_NO, MARK_YES, NOT_DRAINING, STREAMS};
use bindings::bind;
use fields::{permitted_sum, put_four, put_two, share, two};
use registers::Block;
use traffic::{arrive, best_effort, frame, tick, transmit};

/// The octets of a record and a memory that are long enough.
type Record = [u8; RECORD_OCTETS];
type Memory = [u8; MEMORY_OCTETS];

/// The quick call.
#[inline(always)]
pub fn call(call: &Given, port: &mut [u8], memory: &mut [u8]) -> Reply {
    match played(call, port, memory) {
        Ok(reply) => reply,
        Err(refusal) => Reply::refused(refusal),
    }
}

/// The quick call: its reply, or the number of its refusal; 26 for a register's offset comes first, then 18 for a memory that is too short, then 19
/// for a port that is, which is all that a lookup is refused with, and the first that a question for a stream's counts is.
#[inline(always)]
fn played(call: &Given, port: &mut [u8], memory: &mut [u8]) -> Result<Reply, u8> {
    match *call {
        Call::Lookup { address, vid } => return looked_up(port, address, vid),
        Call::StreamCounts { stream } => return registers::stream_counts(port, stream),
        _ => (),
    }
    refuse(26, registers::offset_is_wrong(call))?;
    let memory = memory.first_chunk_mut().ok_or(18)?;
    let (record, rest) = port.split_first_chunk_mut().ok_or(19)?;
    let block = rest.first_chunk_mut().ok_or(19)?;
    match *call {
        Call::ReadRegister { offset } => Ok(registers::read(record, block, offset)),
        Call::WriteRegister { offset, value } => registers::write(record, memory, block, offset, value),
        _ => {
            let reply = on_port(call, record, memory, block);
            registers::follow(block, call, &reply);
            reply
        }
    }
}

/// The lookup on a port that may be too short: it reads the record alone.
#[inline(always)]
fn looked_up(port: &[u8], address: &[u8; ADDRESS_OCTETS], vid: u32) -> Result<Reply, u8> {
    let port: &[u8; PORT_OCTETS] = port.first_chunk().ok_or(19)?;
    let record = port.first_chunk().ok_or(19)?;
    Ok(bindings::lookup(record, address, vid))
}

/// What a quick call that names no register does to the record and the memory, and of the block to the counts of arrivals: its reply, or the number
/// of its refusal.
#[inline(always)]
fn on_port(call: &Given, record: &mut Record, memory: &mut Memory, block: &mut Block) -> Result<Reply, u8> {
    match *call {
        Call::Open { link, delay } => open(record, link, delay),
        Call::Reserve { stream, permitted } => reserve(record, stream, permitted),
        Call::Arrive { stream, charge, tag } => arrive(record, memory, block, stream, charge, tag),
        Call::Tick => tick(record, memory),
        Call::Transmit => transmit(record, memory),
        Call::BestEffort { charge, tag } => best_effort(record, memory, charge, tag),
        Call::Bind { stream, address, vid } => bind(record, stream, address, vid),
        Call::Frame { octets, tag } => frame(record, memory, block, octets, tag),
        Call::Withdraw { stream } => withdraw(record, stream),
        Call::ReadRegister { .. } | Call::WriteRegister { .. } => unreachable!("an access to a register is played beside the record"),
        Call::Lookup { .. } | Call::StreamCounts { .. } => unreachable!("it is played without memory"),
    }
}

/// Refuses with a number where a test says so.
#[inline(always)]
fn refuse(number: u8, refused: bool) -> Result<(), u8> {
    if refused {
        return Err(number);
    }
    Ok(())
}

/// Open(L, K): 2, 3, 4, then the step.
fn open(record: &mut Record, link: u32, delay: u32) -> Result<Reply, u8> {
    refuse(2, record[OPEN] == MARK_YES)?;
    refuse(3, !LINKS.contains(&link))?;
    refuse(4, !DELAYS.contains(&delay))?;
    record[OPEN] = MARK_YES;
    record[PRIOR] = 0;
    record[DELAY] = delay as u8;
    put_two(record, LINK, link as u16);
    put_four(record, WAITS, 0);
    record[layout::start(0)..layout::start(BEST_EFFORT + 1)].fill(0);
    for at in (0..STREAMS).map(entry) {
        free(record, at);
    }
    Ok(Reply::granted(share(link as u16), 0))
}

/// The entry of a stream with its reservation, its draining and its binding gone: three octets.
#[inline(always)]
fn free(record: &mut Record, at: usize) {
    record[at + RESERVED] = MARK_NO;
    record[at + DRAINING] = NOT_DRAINING;
    record[at + BOUND] = MARK_NO;
}

/// Whether the stream of an entry drains: it is reserved, and its count is any but 0.
#[inline(always)]
fn is_draining(record: &Record, at: usize) -> bool {
    record[at + RESERVED] == MARK_YES && record[at + DRAINING] != NOT_DRAINING
}

/// Reserve(s, P): 1, 5, 25, 6, 7, 8, then the step.
fn reserve(record: &mut Record, stream: u8, permitted: u32) -> Result<Reply, u8> {
    refuse(1, record[OPEN] != MARK_YES)?;
    refuse(5, stream as usize >= STREAMS)?;
    let at = entry(stream as usize);
    refuse(25, is_draining(record, at))?;
    refuse(6, record[at + RESERVED] == MARK_YES)?;
    refuse(7, permitted < LEAST_PERMITTED)?;
    let free = share(two(record, LINK)) as u64;
    let sum = permitted_sum(record) as u64 + permitted as u64;
    refuse(8, sum > free)?;
    record[at + RESERVED] = MARK_YES;
    record[at + PLACE] = CURRENT;
    put_two(record, at + LEFT, permitted as u16);
    put_two(record, at + PERMITTED, permitted as u16);
    record[at + DRAINING] = NOT_DRAINING;
    Ok(Reply::granted((free - sum) as u32, 0))
}

/// Withdraw(s): 1, 5, 25, 12, then the step.
fn withdraw(record: &mut Record, stream: u8) -> Result<Reply, u8> {
    refuse(1, record[OPEN] != MARK_YES)?;
    refuse(5, stream as usize >= STREAMS)?;
    let at = entry(stream as usize);
    refuse(25, is_draining(record, at))?;
    refuse(12, record[at + RESERVED] != MARK_YES)?;
    record[at + DRAINING] = DRAINING_TICKS;
    Ok(Reply::granted(0, 0))
}
