//! What is taken of a port, followed through a list by its granted calls and ticks alone: stream numbers, octets of the share, and pairs of address and
//! VID. Every reply to a call that names a stream is held against it: a withdrawn stream "drains until the fourth tick after the withdrawal", and "then
//! number and share are free and its binding is gone". The numbers of documents 01 and 02 stand here and in `ranges` as numbers, not as
//! the model's.

use std::collections::BTreeMap;

use crate::call::{Call, Reply, ADDRESS_OCTETS};
use crate::guarantee::becoming;
use crate::guarantee::found::{Broken, Numbers};
use crate::guarantee::list::Event;
use crate::guarantee::ranges::share;

/// "Streams 0 to 63."
const STREAMS: u8 = 64;
/// "7 P below 84".
const LEAST_PERMITTED: u32 = 84;
/// "It drains until the fourth tick after the withdrawal".
const DRAINING_TICKS: usize = 4;
/// "25 an arrival, reservation, binding or withdrawal of a draining stream".
const DRAINING: u8 = 25;
/// "12 stream not reserved".
const NOT_RESERVED: u8 = 12;
/// A reply of two zeros, as a granted Bind, a granted Withdraw and a tick that purges nothing have it.
const ZEROS: Reply = Reply::granted(0, 0);

/// A destination address and a VID.
pub type Pair = ([u8; ADDRESS_OCTETS], u32);

/// A stream number that is taken: its P, the pair to which it is bound, and the ticks until it is free, if it drains.
struct Stream {
    permitted: u32,
    pair: Option<Pair>,
    ticks: Option<usize>,
}

/// All that is taken of a port after a granted Open.
#[derive(Default)]
pub struct Taken {
    share: u32,
    streams: BTreeMap<u8, Stream>,
    /// The numbers that a tick freed, of which none was granted since.
    freed: Vec<u8>,
}

impl Taken {
    /// Follows a call that was granted.
    pub fn follow(&mut self, call: &Call) {
        match *call {
            Call::Open { link, .. } => *self = Taken { share: share(link), ..Taken::default() },
            Call::Reserve { stream, permitted } => {
                self.freed.retain(|&freed| freed != stream);
                self.streams.insert(stream, Stream { permitted, pair: None, ticks: None });
            }
            Call::Tick => self.tick(),
            Call::Bind { stream, address, vid } => {
                self.streams.entry(stream).and_modify(|stream| stream.pair = Some((address, vid)));
            }
            Call::Withdraw { stream } => {
                self.streams.entry(stream).and_modify(|stream| stream.ticks = Some(DRAINING_TICKS));
            }
            _ => (),
        }
    }

    /// Every draining stream is a tick nearer to its end; at its end it is free.
    fn tick(&mut self) {
        for stream in self.streams.values_mut() {
            stream.ticks = stream.ticks.map(|ticks| ticks - 1);
        }
        self.freed.extend(self.streams.iter().filter(|(_, stream)| stream.ticks == Some(0)).map(|(number, _)| number));
        self.streams.retain(|_, stream| stream.ticks != Some(0));
    }

    /// The stream that is bound to a pair, the lowest where a port has bound several.
    pub fn bound_to(&self, pair: &Pair) -> Option<u8> {
        self.streams.iter().find(|(_, stream)| stream.pair == Some(*pair)).map(|(&number, _)| number)
    }

    /// Whether a stream's number is taken, and drains.
    fn drains(&self, stream: u8) -> bool {
        self.streams.get(&stream).is_some_and(|stream| stream.ticks.is_some())
    }

    /// What is due to a call that names a stream, if that is settled by what is taken alone: 5, 25 and 12, and all of a Reserve and a Withdraw.
    fn due(&self, call: &Call) -> Option<Reply> {
        let stream = named(call)?;
        match (self.streams.get(&stream), call) {
            _ if stream >= STREAMS => Some(Reply::refused(5)),
            _ if self.drains(stream) => Some(Reply::refused(DRAINING)),
            (taken, Call::Reserve { permitted, .. }) => Some(self.reservation(taken.is_some(), *permitted)),
            (None, _) => Some(Reply::refused(NOT_RESERVED)),
            (_, Call::Withdraw { .. }) => Some(ZEROS),
            _ => None,
        }
    }

    /// What is due to a Reserve of a stream that does not drain: "6 reserved already; 7 P below 84; 8 sum of P above the share", or what is then free.
    fn reservation(&self, is_taken: bool, permitted: u32) -> Reply {
        let taken: u64 = self.streams.values().map(|stream| u64::from(stream.permitted)).sum();
        let sum = taken + u64::from(permitted);
        match u64::from(self.share).checked_sub(sum) {
            _ if is_taken => Reply::refused(6),
            _ if permitted < LEAST_PERMITTED => Reply::refused(7),
            None => Reply::refused(8),
            Some(free) => Reply::granted(free as u32, 0),
        }
    }

    /// Whether a reply that is not settled by numbers and share is one that this call can have: no 5, 12 or 25, and of a Bind 11 just where its pair
    /// is taken by another stream, unless 9 or 10 come before.
    fn may_be(&self, call: &Call, reply: &Reply) -> bool {
        match *call {
            Call::Bind { stream, address, vid } => match self.bound_to(&(address, vid)).filter(|&bound| bound != stream) {
                Some(_) => [9, 10, 11].contains(&reply.refusal),
                None => [0, 9, 10].contains(&reply.refusal),
            },
            // Whether a stream is taken is nothing to a question for its counts, which `counts` holds against the replies.
            Call::StreamCounts { .. } => true,
            _ => ![5, NOT_RESERVED, DRAINING].contains(&reply.refusal),
        }
    }
}

/// The stream that a call names.
fn named(call: &Call) -> Option<u8> {
    match *call {
        Call::Reserve { stream, .. } | Call::Arrive { stream, .. } | Call::Bind { stream, .. } | Call::Withdraw { stream } => Some(stream),
        _ => None,
    }
}

/// Holds the replies of a list to calls that name a stream against what is taken: what was found, or how the list breaks it.
pub fn check(events: &[Event]) -> Result<Numbers, Broken> {
    let (mut taken, mut found) = (Taken::default(), Numbers::default());
    for (number, (event, call)) in events.iter().zip(becoming::counted(events)).enumerate() {
        let reply = event.reply;
        match taken.due(&call) {
            Some(due) if due != reply => {
                return Err(Broken { call: number, words: format!("it replies {reply}, and by what is taken {due}") });
            }
            None if !taken.may_be(&call, &reply) => {
                return Err(Broken { call: number, words: format!("it replies {reply}, which what is taken does not allow") });
            }
            _ => found.count(&call, &reply, named(&call).is_some_and(|stream| taken.freed.contains(&stream))),
        }
        if reply.refusal == 0 {
            taken.follow(&call);
        }
    }
    Ok(found)
}
