//! Two lists held against the last sentence of demand 3, and against that of document 02, "Counts per stream", from their events alone: "A stream's
//! counts depend only on ticks, its own calls (frames bound to it too) and which of its reservations are granted."

use std::collections::HashMap;

use crate::call::{Call, Reply};
use crate::guarantee::becoming;
use crate::guarantee::counts::{told, Count, Told};
use crate::guarantee::found::Alike;
use crate::guarantee::list::Event;

/// What remains of a call "once all others are struck out": its number, what it counts as, whether it is a Frame, and its reply.
struct Own {
    number: usize,
    call: Call,
    is_frame: bool,
    reply: Reply,
}

/// Two lists "alike in the order of ticks and one stream's own calls, and in which of its reservations are granted, give its arrivals the same
/// replies", and the stream the same counts: how many arrivals and counts were compared, or nothing where the lists are not so alike.
pub fn check(one: &[Event], other: &[Event], stream: u8) -> Result<Option<Alike>, String> {
    let lists = [one, other];
    let [one, other] = lists.map(|events| own(events, stream));
    if calls(&one) != calls(&other) || granted(&one) != granted(&other) {
        return Ok(None);
    }
    let counts = same_counts(placed(lists[0], &one, stream), placed(lists[1], &other, stream), stream)?;
    let both = arrivals(&one).into_iter().zip(arrivals(&other));
    match both.clone().find(|(one, other)| one.reply != other.reply) {
        Some((one, other)) => Err(format!(
            "stream {stream}: call {} replies {}, call {} of the other list {}",
            one.number, one.reply, other.number, other.reply
        )),
        None => {
            let frames = both.clone().filter(|(one, other)| one.is_frame != other.is_frame).count();
            let withdrawals = one.iter().filter(|own| matches!(own.call, Call::Withdraw { .. })).count();
            Ok(Some(Alike { arrivals: both.count() as u64, frames: frames as u64, withdrawals: withdrawals as u64, counts }))
        }
    }
}

/// What a list tells of the stream's counts, each with its place: after how many of what remains of the list, and which of the two counts.
fn placed(events: &[Event], own: &[Own], stream: u8) -> Vec<((usize, Count), Told)> {
    let place = |told: Told| ((own.partition_point(|own| own.number < told.number), told.count), told);
    told(events, stream).into_iter().map(place).collect()
}

/// Counts that two lists tell at the same place are the same: how many of these, other than 0, there are.
fn same_counts(one: Vec<((usize, Count), Told)>, other: Vec<((usize, Count), Told)>, stream: u8) -> Result<u64, String> {
    let one: HashMap<(usize, Count), Told> = one.into_iter().collect();
    let both = other.into_iter().filter_map(|(place, other)| one.get(&place).map(|one| (*one, other)));
    let mut compared = 0;
    for (one, other) in both {
        if one.value != other.value {
            return Err(format!(
                "stream {stream}: call {} tells {:?} {}, call {} of the other list {}",
                one.number, one.count, one.value, other.number, other.value
            ));
        }
        compared += u64::from(one.value > 0);
    }
    Ok(compared)
}

/// What remains of a list: ticks, and the calls that name the stream.
fn own(events: &[Event], stream: u8) -> Vec<Own> {
    let counted = becoming::counted(events).into_iter().enumerate().filter(|(_, call)| is_own(call, stream));
    let is_frame = |number: usize| matches!(events[number].call, Call::Frame { .. });
    counted.map(|(number, call)| Own { number, call, is_frame: is_frame(number), reply: events[number].reply }).collect()
}

/// Whether a call counts as a tick, or as a Reserve, an Arrive or a Withdraw that names the stream.
pub fn is_own(call: &Call, own: u8) -> bool {
    match *call {
        Call::Tick => true,
        Call::Reserve { stream, .. } | Call::Arrive { stream, .. } | Call::Withdraw { stream } => stream == own,
        _ => false,
    }
}

/// The calls, with their arguments.
fn calls(own: &[Own]) -> Vec<&Call> {
    own.iter().map(|own| &own.call).collect()
}

/// Which of the reservations are granted.
fn granted(own: &[Own]) -> Vec<bool> {
    let reserves = own.iter().filter(|own| matches!(own.call, Call::Reserve { .. }));
    reserves.map(|own| own.reply.refusal == 0).collect()
}

/// The arrivals.
fn arrivals(own: &[Own]) -> Vec<&Own> {
    own.iter().filter(|own| matches!(own.call, Call::Arrive { .. })).collect()
}
