//! The quick calls of a port's traffic: Arrive, Tick, Transmit, Best effort and Frame.

use std::hint::black_box;

use super::bindings::{found, Binding};
use super::fields::{four, frame_at, permitted_sum, put_four, put_two, ring, role, two};
use super::registers::{arrived, Block};
use super::{free, is_draining, refuse, Memory, Record};
use crate::call::Reply;
use crate::layout::{self, entry, DELAY, DRAINING, LEFT, LINK, OPEN, PERMITTED, PLACE, PRIOR, RESERVED, WAITS};
use crate::model::frame::{self, FRAME_LENGTHS};
use crate::model::port::{BEST_EFFORT, BEST_EFFORT_STREAM, CHARGES, CURRENT, LAST, MARK_YES, NOTHING, NOT_DRAINING, QUEUE_PLACES, STREAMS};

/// Arrive(s, a, tag), with what its reply does to the counts of its stream.
#[inline(always)]
pub fn arrive(record: &mut Record, memory: &mut Memory, block: &mut Block, stream: u8, charge: u32, tag: u32) -> Result<Reply, u8> {
    let reply = arrive_uncounted(record, memory, stream, charge, tag);
    arrived(block, stream, &reply);
    reply
}

/// Arrive(s, a, tag): 1, 5, 25, 12, 13, then the step.
#[inline(always)]
fn arrive_uncounted(record: &mut Record, memory: &mut Memory, stream: u8, charge: u32, tag: u32) -> Result<Reply, u8> {
    refuse(1, record[OPEN] != MARK_YES)?;
    refuse(5, stream as usize >= STREAMS)?;
    let at = entry(stream as usize);
    refuse(25, is_draining(record, at))?;
    refuse(12, record[at + RESERVED] != MARK_YES)?;
    refuse(13, !CHARGES.contains(&charge))?;
    let charge = charge as u16;
    let permitted = two(record, at + PERMITTED);
    let (mut place, mut left) = (record[at + PLACE], two(record, at + LEFT));
    while charge > left {
        if place >= LAST {
            record[at + PLACE] = LAST;
            put_two(record, at + LEFT, 0);
            return Err(14);
        }
        place += 1;
        left = permitted;
    }
    let joined = place;
    left -= charge;
    if left == 0 && place < LAST {
        place += 1;
        left = permitted;
    }
    join(record, memory, role(record, joined), (stream, charge, tag))?;
    record[at + PLACE] = place;
    put_two(record, at + LEFT, left);
    Ok(Reply::granted(joined as u32, left as u32))
}

/// A frame (stream, charge, tag) joins a queue, unless 256 wait there (20).
#[inline(always)]
fn join(record: &mut Record, memory: &mut Memory, queue: usize, (stream, charge, tag): (u8, u16, u32)) -> Result<(), u8> {
    let (start, count) = ring(record, queue);
    refuse(20, count as usize >= QUEUE_PLACES)?;
    put_two(record, layout::count(queue), count + 1);
    let frame = frame_at(queue, start, count as usize);
    put_two(memory, frame + layout::FRAME_STREAM, stream as u16);
    put_two(memory, frame + layout::FRAME_CHARGE, charge);
    put_four(memory, frame + layout::FRAME_TAG, tag);
    Ok(())
}

/// Tick: 1, then the step.
#[inline(always)]
pub fn tick(record: &mut Record, memory: &mut Memory) -> Result<Reply, u8> {
    refuse(1, record[OPEN] != MARK_YES)?;
    let prior = role(record, 0);
    let (start, count) = ring(record, prior);
    let octets = (0..count as usize).map(|i| two(memory, frame_at(prior, start, i) + layout::FRAME_CHARGE) as u32).sum();
    put_four(record, layout::start(prior), 0);
    record[PRIOR] = role(record, CURRENT) as u8;
    for at in (0..STREAMS).map(entry) {
        if record[at + RESERVED] != MARK_YES {
            continue;
        }
        if record[at + PLACE] <= CURRENT {
            record[at + PLACE] = CURRENT;
            let permitted = two(record, at + PERMITTED);
            put_two(record, at + LEFT, permitted);
        } else {
            record[at + PLACE] -= 1;
        }
        match record[at + DRAINING] {
            NOT_DRAINING => (),
            1 => free(record, at),
            _ => record[at + DRAINING] -= 1,
        }
    }
    Ok(Reply::granted(count as u32, octets))
}

/// Transmit: 1, then the step.
#[inline(always)]
pub fn transmit(record: &mut Record, memory: &mut Memory) -> Result<Reply, u8> {
    refuse(1, record[OPEN] != MARK_YES)?;
    let (prior, current) = (role(record, 0), role(record, CURRENT));
    if ring(record, prior).1 != 0 {
        return Ok(sent(record, memory, prior));
    }
    if ring(record, current).1 != 0 {
        return Ok(sent(record, memory, current));
    }
    let (start, count) = ring(record, BEST_EFFORT);
    if count == 0 {
        return Ok(Reply::granted(NOTHING, 0));
    }
    let charge = two(memory, frame_at(BEST_EFFORT, start, 0) + layout::FRAME_CHARGE);
    let waits = four(record, WAITS).saturating_sub(charge as u32);
    put_four(record, WAITS, waits);
    Ok(sent(record, memory, BEST_EFFORT))
}

/// Sends the oldest frame of a queue: its stream and tag.
#[inline(always)]
fn sent(record: &mut Record, memory: &Memory, queue: usize) -> Reply {
    let (start, count) = ring(record, queue);
    put_two(record, layout::start(queue), ((start as usize + 1) % QUEUE_PLACES) as u16);
    put_two(record, layout::count(queue), count - 1);
    let frame = frame_at(queue, start, 0);
    let (stream, tag) = (two(memory, frame + layout::FRAME_STREAM), four(memory, frame + layout::FRAME_TAG));
    Reply::granted(stream as u32, tag)
}

/// Best effort(a, tag): 1, 13, 15, 16, then the step.
#[inline(always)]
pub fn best_effort(record: &mut Record, memory: &mut Memory, charge: u32, tag: u32) -> Result<Reply, u8> {
    refuse(1, record[OPEN] != MARK_YES)?;
    refuse(13, !CHARGES.contains(&charge))?;
    refuse(15, ring(record, BEST_EFFORT).1 as usize >= QUEUE_PLACES)?;
    let waits = four(record, WAITS) as u64 + charge as u64;
    let unreserved = (two(record, LINK) as u32).saturating_sub(permitted_sum(record));
    refuse(16, waits > record[DELAY] as u64 * unreserved as u64)?;
    join(record, memory, BEST_EFFORT, (BEST_EFFORT_STREAM as u8, charge as u16, tag))?;
    put_four(record, WAITS, waits as u32);
    Ok(Reply::granted(waits as u32, 0))
}

/// Frame(octets, tag): 1, 17, then Arrive on the first stream that is bound to the frame's pair, or Best effort.
#[inline(always)]
pub fn frame(record: &mut Record, memory: &mut Memory, block: &mut Block, octets: &[u8], tag: u32) -> Result<Reply, u8> {
    refuse(1, record[OPEN] != MARK_YES)?;
    refuse(17, !FRAME_LENGTHS.contains(&octets.len()))?;
    let charge = frame::charge(octets);
    let (stream, compared) = binding(octets).map_or((None, 0), |binding| found(record, &binding));
    // The lookup counts, as the proved one does, though nobody here asks: the compiler must not leave that out.
    black_box(compared);
    match stream {
        Some(stream) => arrive(record, memory, block, stream as u8, charge, tag),
        None => best_effort(record, memory, charge, tag),
    }
}

/// VID and destination of a frame whose octets 12 and 13 are 81 00, as they stand in a stream's entry: the VID is the low 12 bits of octets 14
/// and 15.
#[inline(always)]
fn binding(octets: &[u8]) -> Option<Binding> {
    let header: &[u8; 16] = octets.first_chunk()?;
    let [d0, d1, d2, d3, d4, d5, _, _, _, _, _, _, 0x81, 0x00, high, low] = *header else { return None };
    Some([high & 0x0f, low, d0, d1, d2, d3, d4, d5])
}
