//! What a lent memory and a port record must be before any rule runs: refusals 18 and 19 of document 01, the latter with a clause
//! of document 02, "Withdraw a stream", and the ranges of "Envelope frames". The register block has no clause in 19.

use std::collections::VecDeque;

use super::octets::{self, MEMORY_OCTETS, PORT_OCTETS};
use super::port::{
    permitted_sum, share, Frame, Stream, BEST_EFFORT, BEST_EFFORT_STREAM, CHARGES, CURRENT, DELAYS, DRAINING_TICKS, LAST, LEAST_PERMITTED,
    LINKS, MARK_YES, NEXT, QUEUES, QUEUE_PLACES, RESERVED_QUEUES, STREAMS, VIDS,
};

/// The clauses of 19, in document 01's order, that of document 02 beside the others on reserved streams.
#[derive(Clone, Copy, Debug, PartialEq, Eq)]
pub enum Clause {
    /// The lent port is too short to hold a record and a register block.
    ShortRecord,
    /// "prior above 3".
    Prior,
    /// "a queue start above 255".
    Start,
    /// "or count above 256".
    Count,
    /// "a reserved stream with a place that is none of the three".
    Place,
    /// "or left above P".
    Left,
    /// "19 covers a draining count outside 1 to 4": of a reserved stream that has one, on closed ports too.
    Draining,
    /// "a binding that repeats".
    BindingRepeats,
    /// "belongs to an unreserved stream".
    BindingUnreserved,
    /// "or has a VID outside 1 to 4,094".
    BindingVid,
    /// "a waiting frame's stream above 63".
    WaitingStream,
    /// "(best effort: not 255)".
    WaitingBestEffortStream,
    /// "or charge outside 84 to 2,020".
    WaitingCharge,
    /// "W not the sum of the charges waiting in best effort".
    Waits,
    /// "or, on an open port only, L" outside its range.
    Link,
    /// On an open port only, K outside its range.
    Delay,
    /// On an open port only, "a P outside its range".
    Permitted,
    /// On an open port only, "a P sum above the share".
    PermittedSum,
}

/// Every clause that asks for a record of full length, in that order.
const CLAUSES: &[Clause] = &[
    Clause::Prior,
    Clause::Start,
    Clause::Count,
    Clause::Place,
    Clause::Left,
    Clause::Draining,
    Clause::BindingRepeats,
    Clause::BindingUnreserved,
    Clause::BindingVid,
    Clause::WaitingStream,
    Clause::WaitingBestEffortStream,
    Clause::WaitingCharge,
    Clause::Waits,
    Clause::Link,
    Clause::Delay,
    Clause::Permitted,
    Clause::PermittedSum,
];

/// 18: "lent memory under 1,280 places".
pub fn memory_short(memory: &[u8]) -> bool {
    memory.len() < MEMORY_OCTETS
}

/// 19: the clauses that the record breaks, in that order; a clause that cannot be judged is not among them.
pub fn unfit(record: &[u8], memory: &[u8]) -> Vec<Clause> {
    if record.len() < PORT_OCTETS {
        return vec![Clause::ShortRecord];
    }
    CLAUSES.iter().copied().filter(|clause| breaks(*clause, record, memory)).collect()
}

/// Whether a record of full length breaks a clause.
fn breaks(clause: Clause, record: &[u8], memory: &[u8]) -> bool {
    match clause {
        Clause::ShortRecord => false,
        Clause::Prior => octets::prior(record) >= RESERVED_QUEUES,
        Clause::Start => (0..QUEUES).any(|queue| !start_fits(record, queue)),
        Clause::Count => (0..QUEUES).any(|queue| !count_fits(record, queue)),
        Clause::Place => reserved(record).iter().any(|stream| ![CURRENT, NEXT, LAST].contains(&stream.place)),
        Clause::Left => reserved(record).iter().any(|stream| stream.left > stream.permitted),
        Clause::Draining => reserved(record).iter().any(|stream| stream.is_draining() && stream.draining > DRAINING_TICKS),
        Clause::BindingRepeats => binding_repeats(&bound(record)),
        Clause::BindingUnreserved => octets::streams(record).iter().any(|stream| stream.is_bound() && !stream.is_reserved()),
        Clause::BindingVid => bound(record).iter().any(|stream| !VIDS.contains(&stream.vid)),
        Clause::WaitingStream => waiting_stream(record, memory),
        Clause::WaitingBestEffortStream => waiting_best_effort_stream(record, memory),
        Clause::WaitingCharge => waiting_charge(record, memory),
        Clause::Waits => waits_is_not_the_sum(record, memory),
        Clause::Link => is_open(record) && !LINKS.contains(&octets::link(record)),
        Clause::Delay => is_open(record) && !DELAYS.contains(&octets::delay(record)),
        Clause::Permitted => is_open(record) && reserved(record).iter().any(|stream| stream.permitted < LEAST_PERMITTED),
        Clause::PermittedSum => is_open(record) && permitted_sum_above_share(record),
    }
}

/// Whether the record says that the port is open.
fn is_open(record: &[u8]) -> bool {
    octets::open(record) == MARK_YES
}

/// A queue's start is at most 255.
fn start_fits(record: &[u8], queue: usize) -> bool {
    octets::start(record, queue) < QUEUE_PLACES
}

/// A queue's count is at most 256.
fn count_fits(record: &[u8], queue: usize) -> bool {
    octets::count(record, queue) <= QUEUE_PLACES
}

/// The reserved streams.
fn reserved(record: &[u8]) -> Vec<Stream> {
    octets::streams(record).into_iter().filter(|stream| stream.is_reserved()).collect()
}

/// The reserved streams that are bound; of an unreserved stream nothing is read but whether it is bound.
fn bound(record: &[u8]) -> Vec<Stream> {
    reserved(record).into_iter().filter(|stream| stream.is_bound()).collect()
}

/// A binding repeats if address and VID are both equal on two streams.
fn binding_repeats(bound: &[Stream]) -> bool {
    bound.iter().enumerate().any(|(number, one)| {
        let later = &bound[number + 1..];
        later.iter().any(|other| other.address == one.address && other.vid == one.vid)
    })
}

/// The frames that wait in a queue, or none to judge where memory is short or the queue's start or count is unfit.
fn waiting(record: &[u8], memory: &[u8], queue: usize) -> Option<VecDeque<Frame>> {
    if memory_short(memory) || !start_fits(record, queue) || !count_fits(record, queue) {
        return None;
    }
    Some(octets::frames(record, memory, queue))
}

/// "a waiting frame's stream above 63", in the four queues for reserved traffic; the stream need not be reserved.
fn waiting_stream(record: &[u8], memory: &[u8]) -> bool {
    let mut frames = (0..RESERVED_QUEUES).filter_map(|queue| waiting(record, memory, queue)).flatten();
    frames.any(|frame| frame.stream as usize >= STREAMS)
}

/// "(best effort: not 255)".
fn waiting_best_effort_stream(record: &[u8], memory: &[u8]) -> bool {
    let frames = waiting(record, memory, BEST_EFFORT).unwrap_or_default();
    frames.iter().any(|frame| frame.stream != BEST_EFFORT_STREAM)
}

/// "or charge outside 84 to 2,020", in all five queues.
fn waiting_charge(record: &[u8], memory: &[u8]) -> bool {
    let mut frames = (0..QUEUES).filter_map(|queue| waiting(record, memory, queue)).flatten();
    frames.any(|frame| !CHARGES.contains(&frame.charge))
}

/// "W not the sum of the charges waiting in best effort".
fn waits_is_not_the_sum(record: &[u8], memory: &[u8]) -> bool {
    match waiting(record, memory, BEST_EFFORT) {
        Some(frames) => frames.iter().map(|frame| u64::from(frame.charge)).sum::<u64>() != u64::from(octets::waits(record)),
        None => false,
    }
}

/// "a P sum above the share"; an L outside its range has no share to judge by.
fn permitted_sum_above_share(record: &[u8]) -> bool {
    let link = octets::link(record);
    LINKS.contains(&link) && permitted_sum(&octets::streams(record)) > u64::from(share(link))
}
