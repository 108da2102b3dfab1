//! The draining streams of a port as a list of calls goes on: which of them a call ends, and which numbers are granted again after it.

use std::collections::BTreeMap;

use crate::call::{Call, Reply};
use crate::comparing::coverage::{Coverage, Seen};
use crate::comparing::fit::is_bound;
use crate::comparing::registers::ticks;
use crate::layout::{self, is_draining, is_reserved};
use crate::model::octets::RECORD_OCTETS;
use crate::model::port::STREAMS;

/// A stream whose draining a call may end, and whether it is bound.
pub struct Ending {
    pub stream: usize,
    bound: bool,
}

/// The streams whose draining a call ends if it is granted, by the record before it: at a tick those in their last, at an opening all that drain.
pub fn ending(call: &Call, record: &[u8]) -> Vec<Ending> {
    let ends = |stream: &usize| match call {
        call if ticks(call) => is_reserved(record, *stream) && record[layout::entry(*stream) + layout::DRAINING] == 1,
        Call::Open { .. } => is_draining(record, *stream),
        _ => false,
    };
    let streams = if record.len() < RECORD_OCTETS { 0..0 } else { 0..STREAMS };
    streams.filter(ends).map(|stream| Ending { stream, bound: is_bound(record, stream) }).collect()
}

/// The streams that ticks of a list have freed.
#[derive(Default)]
pub struct Freed {
    ticks: usize,
    /// Each with the number of the tick that freed it.
    streams: BTreeMap<usize, usize>,
}

impl Freed {
    /// Counts what a call ended, and a number that it grants again.
    pub fn follow(&mut self, coverage: &mut Coverage, call: &Call, reply: &Reply, ending: &[Ending]) {
        match *call {
            _ if reply.refusal != 0 => (),
            Call::Open { .. } => {
                coverage.add(Seen::DrainingEndedByOpen, ending.len() as u64);
                self.streams.clear();
            }
            _ if ticks(call) => self.tick(coverage, ending),
            Call::Reserve { stream, .. } => {
                let Some(freed) = self.streams.remove(&usize::from(stream)) else { return };
                coverage.count(Seen::GrantedAgain);
                coverage.add(Seen::GrantedAgainAtOnce, u64::from(freed == self.ticks));
            }
            _ => (),
        }
    }

    /// Counts the streams that a tick frees, and keeps them.
    fn tick(&mut self, coverage: &mut Coverage, ending: &[Ending]) {
        self.ticks += 1;
        coverage.add(Seen::Freed, ending.len() as u64);
        coverage.add(Seen::FreedBound, ending.iter().filter(|ending| ending.bound).count() as u64);
        self.streams.extend(ending.iter().map(|ending| (ending.stream, self.ticks)));
    }
}
