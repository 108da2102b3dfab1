//! A call and its reply in words, for a reader who does not know the numbers by heart: `arrive on stream 5, charge 100, tag 8: joins next, 100 left`.
//! Replies may be anybody's: two that differ read differently, and one that no port can give to the call is told in its numbers.

use crate::call::{hexadecimal, Call, Reply, ADDRESS_OCTETS};
use crate::model::capture::Refused;
use crate::model::port::{BEST_EFFORT_STREAM, CURRENT, DRAINING_TICKS, LAST, NOTHING, QUEUES, STREAMS};
use crate::model::refusal;

/// The roles of the queues by name: those of the reserved queues by place, prior before current, then best effort.
pub const ROLES: [&str; QUEUES] = ["prior", "current", "next", "last", BEST_EFFORT];
/// The role of best effort's queue, and the call.
pub const BEST_EFFORT: &str = "best effort";

/// What a call asks.
pub fn call(call: &Call) -> String {
    match call {
        Call::Open { link, delay } => format!("open with L {link} and K {delay}"),
        Call::Reserve { stream, permitted } => format!("reserve for stream {stream}, P {permitted}"),
        Call::Arrive { stream, charge, tag } => format!("arrive on stream {stream}, charge {charge}, tag {tag}"),
        Call::Tick => String::from("tick"),
        Call::Transmit => String::from("transmit"),
        Call::BestEffort { charge, tag } => format!("{BEST_EFFORT}, charge {charge}, tag {tag}"),
        Call::Bind { stream, address, vid } => format!("bind stream {stream}, address {}, VID {vid}", hexadecimal(address)),
        Call::Frame { octets, tag } => format!("frame of {} octets, tag {tag}", octets.len()),
        Call::Withdraw { stream } => format!("withdraw stream {stream}"),
        Call::ReadRegister { offset } => format!("read the register at offset {offset}"),
        Call::WriteRegister { offset, value } => format!("write {value} to the register at offset {offset}"),
        Call::Lookup { address, vid } => format!("look up address {}, VID {vid}", hexadecimal(address)),
        Call::StreamCounts { stream } => format!("read the counts of stream {stream}"),
    }
}

/// What a reply to a call says.
pub fn reply(call: &Call, reply: &Reply) -> String {
    let words = if reply.refusal == 0 { granted(call, reply.first, reply.second) } else { refused(reply) };
    words.unwrap_or_else(|| format!("replies {reply}, which no port replies to this call"))
}

/// An event of a port: its number, what was asked and what was replied.
pub fn event(number: usize, asked: &Call, replied: &Reply) -> String {
    format!("{number} {}: {}", call(asked), reply(asked, replied))
}

/// A capture that is refused, with "the record index (0 for the whole file or the header)".
pub fn refused_capture(refused: &Refused) -> String {
    let told = refusal::told(refused.refusal);
    match refused.index {
        0 => format!("the capture is {told} (the whole file or the header)"),
        index => format!("the capture is {told} (record {index})"),
    }
}

/// "A refusal replies its number and two zeros", which is not a number of the capture writer's.
fn refused(reply: &Reply) -> Option<String> {
    let of_captures = refusal::CAPTURE_LENGTH..=refusal::CAPTURE_RECORD;
    let of_calls = refusal::words(reply.refusal).is_some() && !of_captures.contains(&reply.refusal);
    (of_calls && *reply == Reply::refused(reply.refusal)).then(|| refusal::told(reply.refusal))
}

/// What the two numbers of a granted call say, if they are numbers that it can reply.
fn granted(call: &Call, first: u32, second: u32) -> Option<String> {
    match call {
        Call::Open { .. } => (second == 0).then(|| format!("opens, with a share of {first}")),
        Call::Reserve { .. } => (second == 0).then(|| format!("reserves, {first} of the share still free")),
        Call::Arrive { .. } => joined(first, second),
        Call::Tick => Some(purged(first, second)),
        Call::Transmit => sent(first, second),
        Call::BestEffort { .. } => joined_best_effort(first, second),
        Call::Bind { .. } => (first == 0 && second == 0).then(|| String::from("binds")),
        // W after a frame has joined best effort is above every place.
        Call::Frame { .. } => joined(first, second).or_else(|| joined_best_effort(first, second)),
        Call::Withdraw { .. } => (first == 0 && second == 0).then(|| format!("withdraws, drains for {DRAINING_TICKS} ticks")),
        Call::ReadRegister { .. } => (second == 0).then(|| format!("reads {first}")),
        Call::WriteRegister { offset: 0, value } if value & 2 != 0 => sent(first, second),
        Call::WriteRegister { offset: 0, value } if value & 1 != 0 => Some(purged(first, second)),
        Call::WriteRegister { .. } => (first == 0 && second == 0).then(|| String::from("writes")),
        Call::Lookup { .. } => found(first, second),
        Call::StreamCounts { .. } => Some(format!("{first} accepted, {second} discarded")),
    }
}

/// "arrive: queue joined (1 current, 2 next, 3 last), left after the step".
fn joined(place: u32, left: u32) -> Option<String> {
    let is_place = (u32::from(CURRENT)..=u32::from(LAST)).contains(&place);
    is_place.then(|| format!("joins {}, {left} left", ROLES[place as usize]))
}

/// "best effort: W after, 0".
fn joined_best_effort(waits: u32, second: u32) -> Option<String> {
    (second == 0).then(|| format!("joins {BEST_EFFORT}, W {waits}"))
}

/// "tick: frames, octets purged".
fn purged(frames: u32, octets: u32) -> String {
    match (frames, octets) {
        (0, 0) => String::from("purges nothing"),
        (1, octets) => format!("purges 1 frame, {octets} octets"),
        (frames, octets) => format!("purges {frames} frames, {octets} octets"),
    }
}

/// "transmit: stream (255 best effort, 254 nothing), tag (0 for nothing)".
fn sent(stream: u32, tag: u32) -> Option<String> {
    match (stream, tag) {
        (NOTHING, 0) => Some(String::from("sends nothing")),
        (BEST_EFFORT_STREAM, tag) => Some(format!("sends {BEST_EFFORT}, tag {tag}")),
        (stream, tag) => (stream < STREAMS as u32).then(|| format!("sends stream {stream}, tag {tag}")),
    }
}

/// The stream that a lookup finds, or 255 for none, and the number of address octets compared, at most all of 64 bindings.
fn found(stream: u32, compared: u32) -> Option<String> {
    let can_be = compared <= (STREAMS * ADDRESS_OCTETS) as u32;
    match stream {
        BEST_EFFORT_STREAM => can_be.then(|| format!("finds no stream, {compared} address octets compared")),
        stream => (can_be && stream < STREAMS as u32).then(|| format!("finds stream {stream}, {compared} address octets compared")),
    }
}

#[cfg(test)]
mod tests {
    use std::collections::HashSet;

    use super::*;

    /// A call of every sort.
    fn calls() -> Vec<Call> {
        vec![
            Call::Open { link: 2_620, delay: 1 },
            Call::Reserve { stream: 5, permitted: 200 },
            Call::Arrive { stream: 5, charge: 100, tag: 8 },
            Call::Tick,
            Call::Transmit,
            Call::BestEffort { charge: 400, tag: 9 },
            Call::Bind { stream: 5, address: [1, 0, 0x5e, 0, 0, 5], vid: 10 },
            Call::Frame { octets: vec![0; 96].into(), tag: 7 },
            Call::Withdraw { stream: 5 },
            Call::ReadRegister { offset: 16 },
            Call::WriteRegister { offset: 12, value: 7 },
            Call::WriteRegister { offset: 0, value: 1 },
            Call::WriteRegister { offset: 0, value: 3 },
            Call::Lookup { address: [1, 0, 0x5e, 0, 0, 5], vid: 10 },
            Call::StreamCounts { stream: 5 },
        ]
    }

    /// What is said of an event of a number, refusal and two reply numbers.
    fn said(call: &Call, refusal: u8, first: u32, second: u32) -> String {
        event(6, call, &Reply { refusal, first, second })
    }

    #[test]
    fn events_are_told_in_words() {
        let calls = calls();
        assert_eq!(said(&calls[0], 0, 600, 0), "6 open with L 2620 and K 1: opens, with a share of 600");
        assert_eq!(said(&calls[1], 0, 400, 0), "6 reserve for stream 5, P 200: reserves, 400 of the share still free");
        assert_eq!(said(&calls[2], 0, 1, 80), "6 arrive on stream 5, charge 100, tag 8: joins current, 80 left");
        assert_eq!(said(&calls[2], 0, 2, 100), "6 arrive on stream 5, charge 100, tag 8: joins next, 100 left");
        assert_eq!(said(&calls[2], 0, 3, 0), "6 arrive on stream 5, charge 100, tag 8: joins last, 0 left");
        assert_eq!(said(&calls[3], 0, 0, 0), "6 tick: purges nothing");
        assert_eq!(said(&calls[3], 0, 1, 120), "6 tick: purges 1 frame, 120 octets");
        assert_eq!(said(&calls[3], 0, 2, 204), "6 tick: purges 2 frames, 204 octets");
        assert_eq!(said(&calls[4], 0, 5, 7), "6 transmit: sends stream 5, tag 7");
        assert_eq!(said(&calls[4], 0, 255, 7), "6 transmit: sends best effort, tag 7");
        assert_eq!(said(&calls[4], 0, 254, 0), "6 transmit: sends nothing");
        assert_eq!(said(&calls[5], 0, 400, 0), "6 best effort, charge 400, tag 9: joins best effort, W 400");
        assert_eq!(said(&calls[6], 0, 0, 0), "6 bind stream 5, address 01 00 5e 00 00 05, VID 10: binds");
        assert_eq!(said(&calls[7], 0, 2, 100), "6 frame of 96 octets, tag 7: joins next, 100 left");
        assert_eq!(said(&calls[7], 0, 520, 0), "6 frame of 96 octets, tag 7: joins best effort, W 520");
        assert_eq!(said(&calls[8], 0, 0, 0), "6 withdraw stream 5: withdraws, drains for 4 ticks");
        assert_eq!(said(&calls[9], 0, 3, 0), "6 read the register at offset 16: reads 3");
        assert_eq!(said(&calls[10], 0, 0, 0), "6 write 7 to the register at offset 12: writes");
        assert_eq!(said(&calls[11], 0, 2, 204), "6 write 1 to the register at offset 0: purges 2 frames, 204 octets");
        assert_eq!(said(&calls[12], 0, 5, 7), "6 write 3 to the register at offset 0: sends stream 5, tag 7");
        let lookup = "6 look up address 01 00 5e 00 00 05, VID 10: finds";
        assert_eq!(said(&calls[13], 0, 5, 7), format!("{lookup} stream 5, 7 address octets compared"));
        assert_eq!(said(&calls[13], 0, 255, 384), format!("{lookup} no stream, 384 address octets compared"));
        assert_eq!(said(&calls[14], 0, 40, 2), "6 read the counts of stream 5: 40 accepted, 2 discarded");
    }

    #[test]
    fn refusals_are_told_in_the_documents_words() {
        let arrival = &calls()[2];
        assert_eq!(said(arrival, 14, 0, 0), "6 arrive on stream 5, charge 100, tag 8: refused with 14: discard");
        assert_eq!(said(&Call::Tick, 1, 0, 0), "6 tick: refused with 1: port closed");
        assert_eq!(said(arrival, 25, 0, 0), "6 arrive on stream 5, charge 100, tag 8: refused with 25: stream draining");
        let refused = |refusal, index| refused_capture(&Refused { refusal, index });
        assert_eq!(refused(23, 4), "the capture is refused with 23: first or next index (record 4)");
        assert_eq!(refused(22, 0), "the capture is refused with 22: header letters or zero octets (the whole file or the header)");
    }

    #[test]
    fn replies_that_no_port_gives_are_told_in_numbers() {
        let odd =
            |call: &Call, refusal, first, second| said(call, refusal, first, second).ends_with(", which no port replies to this call");
        let calls = calls();
        assert_eq!(said(&Call::Tick, 21, 0, 0), "6 tick: replies 21 0 0, which no port replies to this call");
        assert!(odd(&calls[0], 3, 600, 0) && odd(&calls[0], 0, 600, 1) && odd(&calls[1], 0, 400, 1));
        assert!(odd(&calls[2], 0, 0, 80) && odd(&calls[2], 0, 4, 80) && odd(&calls[5], 0, 400, 1) && odd(&calls[6], 0, 1, 0));
        assert!(odd(&calls[4], 0, 64, 7) && odd(&calls[4], 0, 254, 1) && odd(&calls[7], 0, 4, 1));
        assert!(odd(&calls[8], 0, 400, 0) && odd(&calls[8], 0, 0, 1) && odd(&calls[8], 25, 1, 0) && odd(&calls[8], 27, 0, 0));
        assert!(odd(&calls[9], 0, 3, 1) && odd(&calls[10], 0, 1, 0) && odd(&calls[12], 0, 64, 0));
        assert!(odd(&calls[13], 0, 64, 6) && odd(&calls[13], 0, 254, 0) && odd(&calls[13], 0, 5, 385) && odd(&calls[13], 0, 255, 385));
    }

    #[test]
    fn replies_that_differ_read_differently() {
        let numbers = [0, 1, 2, 3, 4, 63, 64, 84, 254, 255, 256, 600, u32::MAX];
        for call in calls() {
            let mut told = HashSet::new();
            for (refusal, first, second) in
                (0..=27).flat_map(|refusal| numbers.map(|first| numbers.map(|second| (refusal, first, second)))).flatten()
            {
                assert!(told.insert(reply(&call, &Reply { refusal, first, second })), "{call}: {refusal} {first} {second}");
            }
        }
    }
}
