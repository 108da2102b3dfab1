//! Why the rule replies what it does to an event: the steps of documents 01 and 02 with the numbers of the port before the event.

use std::ops::RangeInclusive;

use crate::call::{Call, Reply};
use crate::model::port::{permitted_sum, share, Port, BEST_EFFORT, CHARGES, CURRENT, DRAINING_TICKS, LARGEST_CHARGE, LAST, LINKS};
use crate::model::refusal::{BEST_EFFORT_EXCEEDED, CHARGE_OUTSIDE, DISCARD, DRAINING, LINK_OUTSIDE, SHARE_EXCEEDED};
use crate::timeline::words::ROLES;

/// The steps that lead to a reply to a call on a port as it was before; of a refusal also the order of the call's checks.
pub fn steps(call: &Call, reply: &Reply, before: &Port) -> Vec<String> {
    let mut steps = match (call, reply.refusal) {
        (Call::Open { link, .. }, 0) => vec![opening(*link)],
        (Call::Open { link, .. }, LINK_OUTSIDE) => vec![outside("L", *link, &LINKS)],
        (Call::Arrive { charge, .. } | Call::BestEffort { charge, .. }, CHARGE_OUTSIDE) => vec![outside("the charge", *charge, &CHARGES)],
        (Call::Reserve { permitted, .. }, 0 | SHARE_EXCEEDED) => vec![reservation(before, *permitted)],
        (Call::Arrive { stream, charge, .. }, 0 | DISCARD) => arrival(before, usize::from(*stream), *charge),
        (Call::BestEffort { charge, .. }, 0 | BEST_EFFORT_EXCEEDED) => vec![best_effort(before, *charge)],
        (Call::Tick, 0) => vec![format!("{} in prior before it", waiting(before, before.prior))],
        (Call::Transmit, 0) => vec![transmit(before)],
        (Call::Withdraw { stream }, 0) => vec![withdrawal(before, usize::from(*stream))],
        (Call::Reserve { stream, .. } | Call::Arrive { stream, .. } | Call::Withdraw { stream }, DRAINING) => {
            vec![draining(before, usize::from(*stream))]
        }
        _ => Vec::new(),
    };
    if matches!((call, reply.refusal), (Call::Reserve { .. }, SHARE_EXCEEDED) | (Call::BestEffort { .. }, BEST_EFFORT_EXCEEDED)) {
        steps.extend(of_draining(before));
    }
    if reply.refusal != 0 {
        steps.push(format!("{} is the first that holds of the call's checks, in their order {}", reply.refusal, checks(call)));
    }
    steps
}

/// The refusals of a call that an event of a capture can meet, in their order.
fn checks(call: &Call) -> &'static str {
    match call {
        Call::Open { .. } => "2 3 4",
        Call::Reserve { .. } => "1 5 25 6 7 8",
        Call::Arrive { .. } => "1 5 25 12 13 14",
        Call::BestEffort { .. } => "1 13 15 16",
        Call::Tick | Call::Transmit => "1",
        Call::Withdraw { .. } => "1 5 25 12",
        Call::Bind { .. } | Call::Frame { .. } => unreachable!("no event of a capture is a Bind or a Frame"),
        Call::ReadRegister { .. } | Call::WriteRegister { .. } => unreachable!("no event of a capture names a register"),
        Call::Lookup { .. } | Call::StreamCounts { .. } => unreachable!("no event of a capture asks of a port"),
    }
}

/// What the share is of an L.
fn opening(link: u32) -> String {
    format!("the share is L less the largest charge, {link} − {LARGEST_CHARGE} = {}", share(link))
}

/// A number beside the range that it is outside of.
fn outside(what: &str, number: u32, range: &RangeInclusive<u32>) -> String {
    format!("{what} is {number}, outside {} to {}", range.start(), range.end())
}

/// What R becomes, beside the share.
fn reservation(before: &Port, permitted: u32) -> String {
    let (reserved, share) = (permitted_sum(&before.streams), share(before.link));
    let sum = reserved + u64::from(permitted);
    let compared = if sum <= u64::from(share) { "within" } else { "above" };
    format!("R {reserved} and P {permitted} make {sum}, {compared} the share {share}")
}

/// What a withdrawal begins.
fn withdrawal(before: &Port, number: usize) -> String {
    format!("stream {number}, whose P is {}, drains from here on, and is free at tick {DRAINING_TICKS}", before.streams[number].permitted)
}

/// How long a stream still drains.
fn draining(before: &Port, number: usize) -> String {
    match before.streams[number].draining {
        1 => format!("stream {number} drains, and is free at the next tick"),
        ticks => format!("stream {number} drains, and is free at tick {ticks} from here"),
    }
}

/// How much of R is of draining streams, where some is.
fn of_draining(before: &Port) -> Option<String> {
    let draining = before.streams.iter().filter(|stream| stream.is_draining());
    let octets: u32 = draining.map(|stream| stream.permitted).sum();
    (octets > 0).then(|| format!("of R, {octets} are of draining streams"))
}

/// Where the stream is, and each step that the frame makes from there.
fn arrival(before: &Port, number: usize, charge: u32) -> Vec<String> {
    let mut stream = before.streams[number];
    let mut steps =
        vec![format!("stream {number}, whose P is {}, is at {} with left {}", stream.permitted, role(stream.place), stream.left)];
    while charge > stream.left && stream.place != LAST {
        let left = stream.left;
        stream.advance();
        let place = role(stream.place);
        steps.push(format!(
            "{charge} is above {left}, and the place is not last: it advances to {place}, and left becomes P, {}",
            stream.left
        ));
    }
    if charge > stream.left {
        steps.push(format!("{charge} is above {}, and the place is last: the frame is discarded, and left becomes 0", stream.left));
        return steps;
    }
    stream.left -= charge;
    let (place, left) = (role(stream.place), stream.left);
    steps.push(format!("{charge} is within what is left: the frame joins {place}, and left falls to {left}"));
    if stream.left == 0 && stream.place != LAST {
        stream.advance();
        let place = role(stream.place);
        steps.push(format!("left is 0, and the place is not last: it advances to {place}, and left becomes P, {}", stream.left));
    }
    steps
}

/// W with the charge, beside the limit.
fn best_effort(before: &Port, charge: u32) -> String {
    let (reserved, waits) = (permitted_sum(&before.streams), before.waits);
    let limit = u64::from(before.delay) * (u64::from(before.link) - reserved);
    let (sum, delay, link) = (waits + charge, before.delay, before.link);
    let compared = if u64::from(sum) <= limit { "within" } else { "above" };
    format!("W {waits} and the charge {charge} make {sum}, {compared} K × (L − R), {delay} × ({link} − {reserved}) = {limit}")
}

/// What waits in the queues from which a frame can be sent.
fn transmit(before: &Port) -> String {
    let (prior, current) = (waiting(before, before.prior), waiting(before, before.queue_at(CURRENT)));
    format!("{prior} in prior, {current} in current, {} in best effort before it", waiting(before, BEST_EFFORT))
}

/// How many frames and octets wait in a queue.
fn waiting(port: &Port, queue: usize) -> String {
    let queue = &port.queues[queue];
    match queue.frames.len() {
        0 => String::from("no frame"),
        1 => format!("1 frame of {} octets", queue.octets()),
        frames => format!("{frames} frames of {} octets", queue.octets()),
    }
}

/// The name of a place.
fn role(place: u8) -> &'static str {
    ROLES[usize::from(place)]
}
