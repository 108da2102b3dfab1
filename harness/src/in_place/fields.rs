//! The fields of a record and a memory as the quick calls read and write them: numbers stand high octet first.

use super::Record;
use crate::layout::{self, entry, PERMITTED, PRIOR, RESERVED};
use crate::model::port::{LARGEST_CHARGE, MARK_YES, RESERVED_QUEUES, STREAMS};

/// The number of two octets, high octet first.
#[inline(always)]
pub fn two(octets: &[u8], at: usize) -> u16 {
    u16::from_be_bytes([octets[at], octets[at + 1]])
}

/// Writes a number of two octets.
#[inline(always)]
pub fn put_two(octets: &mut [u8], at: usize, number: u16) {
    octets[at..at + 2].copy_from_slice(&number.to_be_bytes());
}

/// The number of four octets, high octet first.
#[inline(always)]
pub fn four(octets: &[u8], at: usize) -> u32 {
    u32::from_be_bytes([octets[at], octets[at + 1], octets[at + 2], octets[at + 3]])
}

/// Writes a number of four octets.
#[inline(always)]
pub fn put_four(octets: &mut [u8], at: usize, number: u32) {
    octets[at..at + 4].copy_from_slice(&number.to_be_bytes());
}

/// Start and count of a queue.
#[inline(always)]
pub fn ring(record: &Record, queue: usize) -> (u16, u16) {
    (two(record, layout::start(queue)), two(record, layout::count(queue)))
}

/// Where the frame `ahead` places after a start stands in a queue's part of the memory.
#[inline(always)]
pub fn frame_at(queue: usize, start: u16, ahead: usize) -> usize {
    layout::frame(queue, start as usize, ahead)
}

/// The queue in a role: 0 prior, 1 current, 2 next, 3 last.
#[inline(always)]
pub fn role(record: &Record, role: u8) -> usize {
    (record[PRIOR] as usize + role as usize) % RESERVED_QUEUES
}

/// The octets of an epoch that reservations may take.
#[inline(always)]
pub fn share(link: u16) -> u32 {
    (link as u32).saturating_sub(LARGEST_CHARGE)
}

/// R, the sum of the reserved streams' P.
pub fn permitted_sum(record: &Record) -> u32 {
    let reserved = (0..STREAMS).map(entry).filter(|&at| record[at + RESERVED] == MARK_YES);
    reserved.map(|at| two(record, at + PERMITTED) as u32).sum()
}
