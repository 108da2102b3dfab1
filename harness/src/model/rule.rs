//! The steps of document 01, and Withdraw of document 02, on a port that is fit: each call's checks in their order, then its rule in the documents'
//! words, then what its reply does to the registers.

use super::frame::{self, Pair, FRAME_LENGTHS};
use super::lookup::lookup;
use super::port::{
    permitted_sum, share, Frame, Port, Stream, BEST_EFFORT, BEST_EFFORT_STREAM, CHARGES, CURRENT, DELAYS, DRAINING_TICKS, LAST,
    LEAST_PERMITTED, LINKS, MARK_NO, MARK_YES, NEXT, NOTHING, NOT_DRAINING, QUEUE_PLACES, RESERVED_QUEUES, STREAMS, VIDS,
};
use super::refusal;
use super::registers::{CONTROL, TICKS, TRANSMITS};
use crate::call::{Call, Given, Reply, ADDRESS_OCTETS};

/// Runs a call on a port that has passed 18 and 19, and on a register that there is; a refusal leaves the port as it was, but for 14. "Flags and
/// counts follow every granted call on the port, not only control writes."
pub fn step(call: &Given, port: &mut Port) -> Reply {
    let reply = on_record(call, port);
    port.registers.follow(call, &reply);
    reply
}

/// What a call does to all of the port but its registers; an access to a register does there what it does.
fn on_record(call: &Given, port: &mut Port) -> Reply {
    match *call {
        Call::Open { link, delay } => open(port, link, delay),
        Call::Reserve { stream, permitted } => reserve(port, usize::from(stream), permitted),
        Call::Arrive { stream, charge, tag } => arrive(port, usize::from(stream), charge, tag),
        Call::Tick => tick(port),
        Call::Transmit => transmit(port),
        Call::BestEffort { charge, tag } => best_effort(port, charge, tag),
        Call::Bind { stream, address, vid } => bind(port, usize::from(stream), *address, vid),
        Call::Frame { octets, tag } => frame(port, octets, tag),
        Call::Withdraw { stream } => withdraw(port, usize::from(stream)),
        Call::ReadRegister { offset } => port.registers.read(offset, port.is_open()),
        Call::WriteRegister { offset: CONTROL, value } => control(port, value),
        Call::WriteRegister { offset, value } => port.registers.write(offset, value),
        Call::Lookup { .. } | Call::StreamCounts { .. } => unreachable!("it is played on the octets, without 18 and 19"),
    }
}

/// A write of control: "writing bit 0 ticks, then bit 1 transmits". It replies "as its last call", "(and a control write with neither bit) two zeros".
/// Tick and Transmit ask themselves whether the port is closed: "1 stops only ticks and transmits".
fn control(port: &mut Port, value: u32) -> Reply {
    let mut reply = Reply::granted(0, 0);
    if value & TICKS != 0 {
        reply = step(&Call::Tick, port);
    }
    if value & TRANSMITS != 0 {
        reply = step(&Call::Transmit, port);
    }
    reply
}

/// "Open(L, K) empties all queues, drops all reservations and bindings and sets W to 0"; it "ends all draining", and replies the share.
fn open(port: &mut Port, link: u32, delay: u32) -> Reply {
    if port.is_open() {
        return Reply::refused(refusal::OPEN_ALREADY);
    }
    if !LINKS.contains(&link) {
        return Reply::refused(refusal::LINK_OUTSIDE);
    }
    if !DELAYS.contains(&delay) {
        return Reply::refused(refusal::DELAY_OUTSIDE);
    }
    port.open = MARK_YES;
    port.prior = 0;
    port.link = link;
    port.delay = delay;
    port.waits = 0;
    for queue in &mut port.queues {
        queue.empty();
    }
    for stream in &mut port.streams {
        stream.reserved = MARK_NO;
        stream.draining = NOT_DRAINING;
        stream.bound = MARK_NO;
    }
    Reply::granted(share(link), 0)
}

/// "Reserve(s, P) sets place current, left P", and no draining; it replies the share still free, the new P taken off.
fn reserve(port: &mut Port, number: usize, permitted: u32) -> Reply {
    if !port.is_open() {
        return Reply::refused(refusal::PORT_CLOSED);
    }
    if number >= STREAMS {
        return Reply::refused(refusal::STREAM_ABOVE);
    }
    if port.streams[number].is_draining() {
        return Reply::refused(refusal::DRAINING);
    }
    if port.streams[number].is_reserved() {
        return Reply::refused(refusal::RESERVED_ALREADY);
    }
    if permitted < LEAST_PERMITTED {
        return Reply::refused(refusal::PERMITTED_BELOW);
    }
    let share = u64::from(share(port.link));
    let sum = permitted_sum(&port.streams) + u64::from(permitted);
    if sum > share {
        return Reply::refused(refusal::SHARE_EXCEEDED);
    }
    let stream = &mut port.streams[number];
    stream.reserved = MARK_YES;
    stream.permitted = permitted;
    stream.place = CURRENT;
    stream.left = permitted;
    stream.draining = NOT_DRAINING;
    Reply::granted((share - sum) as u32, 0)
}

/// "Arrive(s, a, tag), a the charge": looks for the place whose left takes the frame, or discards it.
fn arrive(port: &mut Port, number: usize, charge: u32, tag: u32) -> Reply {
    if !port.is_open() {
        return Reply::refused(refusal::PORT_CLOSED);
    }
    if number >= STREAMS {
        return Reply::refused(refusal::STREAM_ABOVE);
    }
    if port.streams[number].is_draining() {
        return Reply::refused(refusal::DRAINING);
    }
    if !port.streams[number].is_reserved() {
        return Reply::refused(refusal::NOT_RESERVED);
    }
    if !CHARGES.contains(&charge) {
        return Reply::refused(refusal::CHARGE_OUTSIDE);
    }
    let mut stream = port.streams[number];
    loop {
        if charge <= stream.left {
            return join(port, number, stream, charge, tag);
        }
        if stream.place == LAST {
            // "If a > left at last, the frame is discarded (14) and left becomes 0."
            stream.left = 0;
            port.streams[number] = stream;
            return Reply::refused(refusal::DISCARD);
        }
        // "If a > left and the place is not last, the place advances, left becomes P, and the rule is tried again."
        stream.advance();
    }
}

/// "If a ≤ left, the frame joins the queue at the place and left falls by a", unless that queue holds 256 (20).
fn join(port: &mut Port, number: usize, mut stream: Stream, charge: u32, tag: u32) -> Reply {
    let joined = stream.place;
    let at_place = port.queue_at(joined);
    let queue = &mut port.queues[at_place];
    if queue.frames.len() == QUEUE_PLACES {
        return Reply::refused(refusal::QUEUE_FULL);
    }
    queue.join(Frame { stream: number as u32, charge, tag });
    stream.left -= charge;
    // "if left is then 0 and the place is not last, the place advances by one and left becomes P"
    if stream.left == 0 && stream.place != LAST {
        stream.advance();
    }
    port.streams[number] = stream;
    Reply::granted(u32::from(joined), stream.left)
}

/// "Tick purges prior, and replies with the frames and octets purged"; then every role and every stream moves, and a draining
/// stream is a tick nearer to its end.
fn tick(port: &mut Port) -> Reply {
    if !port.is_open() {
        return Reply::refused(refusal::PORT_CLOSED);
    }
    let purged = &mut port.queues[port.prior];
    let frames = purged.frames.len() as u32;
    let octets = purged.octets();
    purged.empty();
    // "a tick moves each role to the next number, 3 to 0": the purged queue, now empty, becomes last.
    port.prior = (port.prior + 1) % RESERVED_QUEUES;
    for stream in port.streams.iter_mut().filter(|stream| stream.is_reserved()) {
        match stream.place {
            // "A stream at current stays at current with left P."
            CURRENT => stream.left = stream.permitted,
            // "A stream at next goes to current, one at last goes to next, and both keep their left."
            NEXT => stream.place = CURRENT,
            // The place is last: a reserved stream with any other is 19.
            _ => stream.place = NEXT,
        }
        stream.drain();
    }
    Reply::granted(frames, octets)
}

/// "Transmit sends the oldest frame of prior; if none, of current; if none, of best effort; if none, it replies "nothing"."
fn transmit(port: &mut Port) -> Reply {
    if !port.is_open() {
        return Reply::refused(refusal::PORT_CLOSED);
    }
    let current = port.queue_at(CURRENT);
    for queue in [port.prior, current, BEST_EFFORT] {
        if let Some(frame) = port.queues[queue].send() {
            if queue == BEST_EFFORT {
                port.waits -= frame.charge;
            }
            return Reply::granted(frame.stream, frame.tag);
        }
    }
    Reply::granted(NOTHING, 0)
}

/// "Best effort(a, tag)": "The frame is accepted if W + a ≤ K × (L − R)", and joins best effort; the reply is W after.
fn best_effort(port: &mut Port, charge: u32, tag: u32) -> Reply {
    if !port.is_open() {
        return Reply::refused(refusal::PORT_CLOSED);
    }
    if !CHARGES.contains(&charge) {
        return Reply::refused(refusal::CHARGE_OUTSIDE);
    }
    let waiting = port.queues[BEST_EFFORT].frames.len();
    if waiting == QUEUE_PLACES {
        return Reply::refused(refusal::BEST_EFFORT_FULL);
    }
    let unreserved = u64::from(port.link) - permitted_sum(&port.streams);
    let limit = u64::from(port.delay) * unreserved;
    let waits = port.waits + charge;
    if u64::from(waits) > limit {
        return Reply::refused(refusal::BEST_EFFORT_EXCEEDED);
    }
    port.queues[BEST_EFFORT].join(Frame { stream: BEST_EFFORT_STREAM, charge, tag });
    port.waits = waits;
    Reply::granted(waits, 0)
}

/// "Bind(s, address, VID) gives a stream a destination address of six octets and a VLAN id"; it replies two zeros.
fn bind(port: &mut Port, number: usize, address: [u8; ADDRESS_OCTETS], vid: u32) -> Reply {
    if !port.is_open() {
        return Reply::refused(refusal::PORT_CLOSED);
    }
    if number >= STREAMS {
        return Reply::refused(refusal::STREAM_ABOVE);
    }
    if port.streams[number].is_draining() {
        return Reply::refused(refusal::DRAINING);
    }
    if !port.streams[number].is_reserved() {
        return Reply::refused(refusal::NOT_RESERVED);
    }
    if !VIDS.contains(&vid) {
        return Reply::refused(refusal::VID_OUTSIDE);
    }
    if port.streams[number].is_bound() {
        return Reply::refused(refusal::BOUND_ALREADY);
    }
    if bound_to(port, &Pair { address, vid }).is_some() {
        return Reply::refused(refusal::PAIR_BOUND_ALREADY);
    }
    let stream = &mut port.streams[number];
    stream.bound = MARK_YES;
    stream.vid = vid;
    stream.address = address;
    Reply::granted(0, 0)
}

/// "A withdrawn stream stops taking frames, while its frames already queued stay queued": from now on it drains. "A withdrawal replies two zeros."
fn withdraw(port: &mut Port, number: usize) -> Reply {
    if !port.is_open() {
        return Reply::refused(refusal::PORT_CLOSED);
    }
    if number >= STREAMS {
        return Reply::refused(refusal::STREAM_ABOVE);
    }
    if port.streams[number].is_draining() {
        return Reply::refused(refusal::DRAINING);
    }
    if !port.streams[number].is_reserved() {
        return Reply::refused(refusal::NOT_RESERVED);
    }
    port.streams[number].draining = DRAINING_TICKS;
    Reply::granted(0, 0)
}

/// The stream that is bound to a pair, if there is one, by the lookup: a port that is fit has no second.
fn bound_to(port: &Port, pair: &Pair) -> Option<usize> {
    lookup(&port.streams, pair).stream
}

/// "Frame(octets, tag)": "A bound pair is an Arrive on its stream; all else is best effort." A stream's own calls are "frames bound to it too", so the
/// registers follow the call that it becomes.
fn frame(port: &mut Port, octets: &[u8], tag: u32) -> Reply {
    if !port.is_open() {
        return Reply::refused(refusal::PORT_CLOSED);
    }
    if !FRAME_LENGTHS.contains(&octets.len()) {
        return Reply::refused(refusal::FRAME_LENGTH);
    }
    step(&becomes(port, octets, tag).given(), port)
}

/// What a frame whose length is in its range becomes: "A bound pair is an Arrive on its stream; all else is best effort."
pub fn becomes(port: &Port, octets: &[u8], tag: u32) -> Call {
    let charge = frame::charge(octets);
    let bound = frame::pair(octets).and_then(|pair| bound_to(port, &pair));
    match bound {
        Some(number) => Call::Arrive { stream: number as u8, charge, tag },
        None => Call::BestEffort { charge, tag },
    }
}
