//! Request 1 of document 02, "Withdraw a stream": what a withdrawn stream is refused, what it still has, and when it is free.

use bunnysolder::{Framed, Port, Purged, Queue, Refusal, Reserved, Sent};

use crate::{frame, joined, opened, refused, reserved, waiting, ADDRESS, STREAM};

/// "It drains until the fourth tick after the withdrawal".
const DRAINING_TICKS: u32 = 4;

/// The port of the cases, whose stream was withdrawn.
fn withdrawn() -> Port {
    let mut port = reserved();
    assert_eq!(port.withdraw(STREAM), Ok(()));
    port
}

/// So many ticks, of which none purges.
fn ticks(port: &mut Port, count: u32) {
    for _ in 0..count {
        assert_eq!(port.tick(), Ok(Purged { frames: 0, octets: 0 }));
    }
}

/// 5, 25, 12 in this order.
#[test]
fn withdraw_is_refused() {
    let mut port = withdrawn();
    refused(port.withdraw(64), Refusal::StreamRange, 5);
    refused(port.withdraw(255), Refusal::StreamRange, 5);
    refused(port.withdraw(STREAM), Refusal::Draining, 25);
    refused(port.withdraw(6), Refusal::NotReserved, 12);
}

/// "It refuses with 25 an arrival, reservation, binding or withdrawal of a draining stream, checked right after 5": before 6, 7, 8, 13, 9, 10 and 11.
#[test]
fn calls_of_a_draining_stream_are_refused() {
    let mut port = reserved();
    assert_eq!(port.bind(STREAM, &ADDRESS, 1), Ok(()));
    assert_eq!(port.withdraw(STREAM), Ok(()));
    for permitted in [83, 200, u32::MAX] {
        refused(port.reserve(STREAM, permitted), Refusal::Draining, 25);
    }
    for charge in [83, 84, 201] {
        refused(port.arrive(STREAM, charge, 1), Refusal::Draining, 25);
    }
    for vid in [0, 1, 2] {
        refused(port.bind(STREAM, &ADDRESS, vid), Refusal::Draining, 25);
    }
    refused(port.withdraw(STREAM), Refusal::Draining, 25);
}

/// A frame whose pair belongs to a draining stream is an arrival on it: 25 after 17, and before 14.
#[test]
fn frames_of_a_draining_stream_are_refused() {
    let mut port = reserved();
    assert_eq!(port.bind(STREAM, &ADDRESS, 1), Ok(()));
    assert_eq!(port.withdraw(STREAM), Ok(()));
    refused(port.frame(&frame(1)[..59], 1), Refusal::FrameLength, 17);
    refused(port.frame(&frame(1)[..60], 1), Refusal::Draining, 25);
    refused(port.frame(&frame(1)[..1_996], 1), Refusal::Draining, 25);
    refused(port.frame(&frame(1)[..1_997], 1), Refusal::FrameLength, 17);
    assert_eq!(port.frame(&frame(2)[..60], 1), waiting(84).map(Framed::BestEffort));
}

/// "then number and share are free": the number at the fourth tick, and not before it.
#[test]
fn the_number_is_free_after_the_last_tick() {
    let mut port = withdrawn();
    for _ in 0..DRAINING_TICKS {
        refused(port.reserve(STREAM, 200), Refusal::Draining, 25);
        refused(port.withdraw(STREAM), Refusal::Draining, 25);
        ticks(&mut port, 1);
    }
    refused(port.arrive(STREAM, 84, 1), Refusal::NotReserved, 12);
    refused(port.withdraw(STREAM), Refusal::NotReserved, 12);
    assert_eq!(port.reserve(STREAM, 600), Ok(Reserved { free: 0 }));
    assert_eq!(port.arrive(STREAM, 120, 1), joined(Queue::Current, 480));
}

/// "it still counts as reserved, with its P in R and the share": 600 − 200 = 400 are free to others, and all 600 after the fourth tick.
#[test]
fn the_share_is_free_after_the_last_tick() {
    let mut port = withdrawn();
    for _ in 0..DRAINING_TICKS {
        refused(port.reserve(6, 401), Refusal::ShareExceeded, 8);
        ticks(&mut port, 1);
    }
    assert_eq!(port.reserve(6, 401), Ok(Reserved { free: 199 }));
}

/// W is at most 1 × (2,620 − 200) = 2,420 while the stream drains, and 2,620 after it.
#[test]
fn best_effort_has_the_share_after_the_last_tick() {
    let mut port = withdrawn();
    assert_eq!(port.best_effort(2_020, 1), waiting(2_020));
    for _ in 0..DRAINING_TICKS {
        refused(port.best_effort(401, 2), Refusal::LimitExceeded, 16);
        ticks(&mut port, 1);
    }
    assert_eq!(port.best_effort(600, 2), waiting(2_620));
}

/// "its binding is gone": until the fourth tick its pair is refused to others (11), and then a frame with it is best effort.
#[test]
fn the_binding_is_gone_after_the_last_tick() {
    let mut port = reserved();
    assert_eq!(port.reserve(6, 200), Ok(Reserved { free: 200 }));
    assert_eq!(port.bind(STREAM, &ADDRESS, 1), Ok(()));
    assert_eq!(port.withdraw(STREAM), Ok(()));
    for _ in 0..DRAINING_TICKS {
        refused(port.bind(6, &ADDRESS, 1), Refusal::PairBoundAlready, 11);
        ticks(&mut port, 1);
    }
    assert_eq!(port.frame(&frame(1)[..60], 1), waiting(84).map(Framed::BestEffort));
    assert_eq!(port.bind(6, &ADDRESS, 1), Ok(()));
    assert_eq!(port.frame(&frame(1)[..60], 2), joined(Queue::Current, 116).map(Framed::Arrived));
}

/// "its frames already queued stay queued": those of current, next and last are sent in their epochs.
#[test]
fn queued_frames_stay_and_are_sent() {
    let mut port = reserved();
    for (tag, queue, left) in [(1, Queue::Current, 200), (2, Queue::Next, 200), (3, Queue::Last, 0)] {
        assert_eq!(port.arrive(STREAM, 200, tag), joined(queue, left));
    }
    assert_eq!(port.withdraw(STREAM), Ok(()));
    for tag in 1..=3 {
        assert_eq!(port.transmit(), Ok(Sent::Reserved { stream: STREAM, tag }));
        assert_eq!(port.transmit(), Ok(Sent::Nothing));
        ticks(&mut port, 1);
    }
}

/// Frames that are not sent are purged as any other's, and the stream is free at its tick all the same.
#[test]
fn frames_that_are_not_sent_are_purged() {
    let mut port = reserved();
    assert_eq!(port.arrive(STREAM, 200, 1), joined(Queue::Current, 200));
    assert_eq!(port.arrive(STREAM, 200, 2), joined(Queue::Next, 200));
    assert_eq!(port.arrive(STREAM, 200, 3), joined(Queue::Last, 0));
    assert_eq!(port.withdraw(STREAM), Ok(()));
    ticks(&mut port, 1);
    for _ in 1..DRAINING_TICKS {
        refused(port.reserve(STREAM, 200), Refusal::Draining, 25);
        assert_eq!(port.tick(), Ok(Purged { frames: 1, octets: 200 }));
    }
    assert_eq!(port.reserve(STREAM, 200), Ok(Reserved { free: 400 }));
}

/// Two streams that are withdrawn in different epochs drain each by itself.
#[test]
fn each_stream_drains_by_itself() {
    let mut port = reserved();
    assert_eq!(port.reserve(6, 400), Ok(Reserved { free: 0 }));
    assert_eq!(port.withdraw(STREAM), Ok(()));
    ticks(&mut port, 1);
    assert_eq!(port.arrive(6, 400, 1), joined(Queue::Current, 400));
    assert_eq!(port.transmit(), Ok(Sent::Reserved { stream: 6, tag: 1 }));
    assert_eq!(port.withdraw(6), Ok(()));
    ticks(&mut port, DRAINING_TICKS - 1);
    refused(port.reserve(6, 84), Refusal::Draining, 25);
    assert_eq!(port.reserve(STREAM, 200), Ok(Reserved { free: 0 }));
    ticks(&mut port, 1);
    assert_eq!(port.reserve(6, 400), Ok(Reserved { free: 0 }));
}

/// A stream may be withdrawn in the epoch of its grant, any number of times.
#[test]
fn a_stream_is_withdrawn_again() {
    let mut port = opened();
    for _ in 0..3 {
        assert_eq!(port.reserve(STREAM, 600), Ok(Reserved { free: 0 }));
        assert_eq!(port.withdraw(STREAM), Ok(()));
        ticks(&mut port, DRAINING_TICKS);
    }
}
