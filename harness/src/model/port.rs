//! The state of a port in plain form: document 01, "State of a port", with the draining of document 02, "Withdraw a stream", and the registers of
//! "Register block" and "Counts per stream", and its numbers, each named once, the largest charge that of "Envelope frames".

use std::collections::VecDeque;
use std::ops::RangeInclusive;

use super::registers::Registers;
use crate::call::ADDRESS_OCTETS;

/// "Queues prior, current, next, last and best effort": five.
pub const QUEUES: usize = 5;
/// "One port has four queues for reserved traffic": queues 0 to 3.
pub const RESERVED_QUEUES: usize = 4;
/// "It drains until the fourth tick after the withdrawal": by then every queue of now has been prior.
pub const DRAINING_TICKS: u8 = RESERVED_QUEUES as u8;
/// What the draining count of a stream is that does not drain.
pub const NOT_DRAINING: u8 = 0;
/// "Best effort is queue 4."
pub const BEST_EFFORT: usize = 4;
/// "each queue has 256 of them" (frame places), so it holds "at most 256 frames".
pub const QUEUE_PLACES: usize = 256;
/// "Streams 0 to 63."
pub const STREAMS: usize = 64;

/// "A frame is (stream, charge, tag), its stream 255 in best effort."
pub const BEST_EFFORT_STREAM: u32 = 255;
/// Transmit replies "254 nothing" in the place of a stream.
pub const NOTHING: u32 = 254;

/// The least charge: "A charge is 84 to" the largest one.
pub const LEAST_CHARGE: u32 = 84;
/// "The largest charge becomes 2,020", which is also what the share leaves free: "so the share is L − 2,020".
pub const LARGEST_CHARGE: u32 = 2_020;
/// The charges that a frame may have, 84 to 2,020.
pub const CHARGES: RangeInclusive<u32> = LEAST_CHARGE..=LARGEST_CHARGE;
/// The greatest share that a port can have: that of 256 frames of the least charge, so that no queue of a list from opening is ever full (20).
pub const GREATEST_SHARE: u32 = QUEUE_PLACES as u32 * LEAST_CHARGE;
/// "L runs from 2,104 to 23,524": its share is 84, the least P, to 21,504.
pub const LINKS: RangeInclusive<u32> = LARGEST_CHARGE + LEAST_PERMITTED..=LARGEST_CHARGE + GREATEST_SHARE;
/// "K, best-effort delay bound in epochs, 1 to 16."
pub const DELAYS: RangeInclusive<u32> = 1..=16;
/// "7 P below 84": P has a least value, and no upper end of its own.
pub const LEAST_PERMITTED: u32 = 84;
/// "9 VID outside 1 to 4,094".
pub const VIDS: RangeInclusive<u32> = 1..=4_094;

/// The mark of an open port, of a reserved stream, of a bound stream and of a flag that is up; any other octet says that it is not.
pub const MARK_YES: u8 = 1;
/// The mark that Open leaves at every stream, neither reserved nor bound, and at every flag, which is down.
pub const MARK_NO: u8 = 0;

/// The place current of a stream, and "1 current" in Arrive's reply.
pub const CURRENT: u8 = 1;
/// The place next of a stream, and "2 next" in Arrive's reply.
pub const NEXT: u8 = 2;
/// The place last of a stream, and "3 last" in Arrive's reply.
pub const LAST: u8 = 3;

/// "A frame is (stream, charge, tag)".
#[derive(Clone, Copy, Debug, PartialEq, Eq)]
pub struct Frame {
    pub stream: u32,
    pub charge: u32,
    pub tag: u32,
}

/// "A queue has a start and a count": the start is a number, the count is how many frames wait, oldest first.
#[derive(Clone, Debug, PartialEq, Eq)]
pub struct Queue {
    pub start: usize,
    pub frames: VecDeque<Frame>,
}

/// A stream's entry in the record, with its two marks and its place as the octets that they are.
#[derive(Clone, Copy, Debug, PartialEq, Eq)]
pub struct Stream {
    pub reserved: u8,
    pub place: u8,
    pub left: u32,
    pub permitted: u32,
    /// The draining count of a reserved stream: 0, or the ticks until it is free. That of an unreserved stream means nothing.
    pub draining: u8,
    pub bound: u8,
    pub vid: u32,
    pub address: [u8; ADDRESS_OCTETS],
}

/// The whole port: what the record holds, the frames that wait in memory, and the registers.
#[derive(Clone, Debug, PartialEq, Eq)]
pub struct Port {
    pub open: u8,
    pub prior: usize,
    /// K.
    pub delay: u32,
    /// L.
    pub link: u32,
    /// W, "the sum of charges waiting" in best effort.
    pub waits: u32,
    /// Queues 0 to 4, by their number.
    pub queues: Vec<Queue>,
    /// Streams 0 to 63, by their number.
    pub streams: Vec<Stream>,
    pub registers: Registers,
}

impl Queue {
    /// "A frame joins at place (start + count) modulo 256": it comes behind all that wait, and start stays.
    pub fn join(&mut self, frame: Frame) {
        self.frames.push_back(frame);
    }

    /// "sending lowers the count and moves start on by one, 255 to 0"; a queue without frames sends none.
    pub fn send(&mut self) -> Option<Frame> {
        let oldest = self.frames.pop_front()?;
        self.start = (self.start + 1) % QUEUE_PLACES;
        Some(oldest)
    }

    /// "opening and purging set both to 0": start and count.
    pub fn empty(&mut self) {
        self.start = 0;
        self.frames.clear();
    }

    /// The sum of the charges that wait in the queue.
    pub fn octets(&self) -> u32 {
        self.frames.iter().map(|frame| frame.charge).sum()
    }
}

impl Stream {
    /// Whether the stream is reserved.
    pub fn is_reserved(&self) -> bool {
        self.reserved == MARK_YES
    }

    /// Whether the stream drains: "it still counts as reserved".
    pub fn is_draining(&self) -> bool {
        self.is_reserved() && self.draining != NOT_DRAINING
    }

    /// Whether the stream has a binding.
    pub fn is_bound(&self) -> bool {
        self.bound == MARK_YES
    }

    /// "It drains until the fourth tick after the withdrawal", "then number and share are free and its binding is gone"; of a stream that does not
    /// drain a tick ends nothing.
    pub fn drain(&mut self) {
        if !self.is_draining() {
            return;
        }
        self.draining -= 1;
        if self.draining == NOT_DRAINING {
            self.reserved = MARK_NO;
            self.bound = MARK_NO;
        }
    }

    /// "the place advances by one and left becomes P".
    pub fn advance(&mut self) {
        self.place += 1;
        self.left = self.permitted;
    }
}

impl Port {
    /// "A port starts closed, its queues empty and no stream reserved."
    pub fn closed() -> Port {
        let queue = Queue { start: 0, frames: VecDeque::new() };
        let stream = Stream {
            reserved: MARK_NO,
            place: CURRENT,
            left: 0,
            permitted: 0,
            draining: NOT_DRAINING,
            bound: MARK_NO,
            vid: 0,
            address: [0; ADDRESS_OCTETS],
        };
        Port {
            open: MARK_NO,
            prior: 0,
            delay: 0,
            link: 0,
            waits: 0,
            queues: vec![queue; QUEUES],
            streams: vec![stream; STREAMS],
            registers: Registers::ZERO,
        }
    }

    /// Whether the port is open.
    pub fn is_open(&self) -> bool {
        self.open == MARK_YES
    }

    /// The number of the queue at a place: "prior, current, next, last are queues 0 to 3" counted on from prior, 3 to 0.
    pub fn queue_at(&self, place: u8) -> usize {
        (self.prior + usize::from(place)) % RESERVED_QUEUES
    }
}

/// "the share is L − 2,020", for an L in its range.
pub fn share(link: u32) -> u32 {
    link - LARGEST_CHARGE
}

/// R, "the sum of the reserved streams' P", exact and never modulo a power of two.
pub fn permitted_sum(streams: &[Stream]) -> u64 {
    streams.iter().filter(|stream| stream.is_reserved()).map(|stream| u64::from(stream.permitted)).sum()
}
