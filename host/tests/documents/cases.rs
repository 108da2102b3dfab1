//! Cases C1 to C12, and the sample output.

use bunnysolder::{Port, Purged, Queue, Refusal, Reserved, Sent};

use crate::{joined, opened, reserved, waiting, STREAM};

/// What Open replies for an L, with K = 1.
fn share(link: u32) -> Result<u32, Refusal> {
    Port::open(link, 1).map(|port| port.share())
}

/// "C1 L 2,103: 3; 2,104: share 84."
#[test]
fn c1_least_link() {
    assert_eq!(share(2_103), Err(Refusal::LinkRange));
    assert_eq!(share(2_104), Ok(84));
}

/// "C2 L 23,524: share 21,504; 23,525: 3."
#[test]
fn c2_largest_link() {
    assert_eq!(share(23_524), Ok(21_504));
    assert_eq!(share(23_525), Err(Refusal::LinkRange));
}

/// "C3 P 83: 7; 84 granted."
#[test]
fn c3_least_reservation() {
    let mut port = opened();
    assert_eq!(port.reserve(STREAM, 83), Err(Refusal::PermittedRange));
    assert_eq!(port.reserve(STREAM, 84), Ok(Reserved { free: 516 }));
}

/// "C4 after 200, P 401: 8; 400 granted."
#[test]
fn c4_reservations_to_the_share() {
    let mut port = reserved();
    assert_eq!(port.reserve(6, 401), Err(Refusal::ShareExceeded));
    assert_eq!(port.reserve(6, 400), Ok(Reserved { free: 0 }));
}

/// "C5 charge 200: current, then next with left 200."
#[test]
fn c5_exact_fit() {
    let mut port = reserved();
    assert_eq!(port.arrive(STREAM, 200, 1), joined(Queue::Current, 200));
    assert_eq!(port.arrive(STREAM, 84, 2), joined(Queue::Next, 116));
}

/// "C6 120, 100: as in the output."
#[test]
fn c6_the_sample_output() {
    let mut port = c6();
    assert_eq!(port.transmit(), Ok(Sent::Reserved { stream: STREAM, tag: 7 }));
    assert_eq!(port.transmit(), Ok(Sent::Nothing));
    assert_eq!(port.tick(), Ok(Purged { frames: 0, octets: 0 }));
    assert_eq!(port.transmit(), Ok(Sent::Reserved { stream: STREAM, tag: 8 }));
}

/// The arrivals of C6.
fn c6() -> Port {
    let mut port = reserved();
    assert_eq!(port.arrive(STREAM, 120, 7), joined(Queue::Current, 80));
    assert_eq!(port.arrive(STREAM, 100, 8), joined(Queue::Next, 100));
    port
}

/// "C7 then 90: next, left 10; then 84: last, left 116."
#[test]
fn c7_on_to_last() {
    let mut port = c6();
    assert_eq!(port.arrive(STREAM, 90, 9), joined(Queue::Next, 10));
    assert_eq!(port.arrive(STREAM, 84, 10), joined(Queue::Last, 116));
}

/// "C8 200 three times: current, next, last; then 84: 14."
#[test]
fn c8_three_epochs_full() {
    c8();
}

/// The arrivals of C8.
fn c8() -> Port {
    let mut port = reserved();
    assert_eq!(port.arrive(STREAM, 200, 1), joined(Queue::Current, 200));
    assert_eq!(port.arrive(STREAM, 200, 2), joined(Queue::Next, 200));
    assert_eq!(port.arrive(STREAM, 200, 3), joined(Queue::Last, 0));
    assert_eq!(port.arrive(STREAM, 84, 4), Err(Refusal::Discard));
    port
}

/// "C9 C8, tick, 84: last, left 116."
#[test]
fn c9_after_a_tick() {
    let mut port = c8();
    assert_eq!(port.tick(), Ok(Purged { frames: 0, octets: 0 }));
    assert_eq!(port.arrive(STREAM, 84, 5), joined(Queue::Last, 116));
}

/// "C10 charge 201: 14; then 84: 14."
#[test]
fn c10_larger_than_the_reservation() {
    let mut port = reserved();
    assert_eq!(port.arrive(STREAM, 201, 1), Err(Refusal::Discard));
    assert_eq!(port.arrive(STREAM, 84, 2), Err(Refusal::Discard));
}

/// "C11 charges 83 and 2,021: 13."
#[test]
fn c11_charges_outside() {
    let mut port = reserved();
    assert_eq!(port.arrive(STREAM, 83, 1), Err(Refusal::ChargeRange));
    assert_eq!(port.arrive(STREAM, 2_021, 2), Err(Refusal::ChargeRange));
}

/// "C12 best effort 2,020, then 400: W 2,420; then 84: 16."
#[test]
fn c12_best_effort_to_its_limit() {
    let mut port = reserved();
    assert_eq!(port.best_effort(2_020, 1), waiting(2_020));
    assert_eq!(port.best_effort(400, 2), waiting(2_420));
    assert_eq!(port.best_effort(84, 3), Err(Refusal::LimitExceeded));
}

/// Frames of 116 and 84 octets, which fill current and are not sent, are purged by the second tick after them; best effort is not.
#[test]
fn a_tick_purges_what_was_not_sent() {
    let mut port = reserved();
    assert_eq!(port.arrive(STREAM, 116, 1), joined(Queue::Current, 84));
    assert_eq!(port.arrive(STREAM, 84, 2), joined(Queue::Current, 200));
    assert_eq!(port.best_effort(84, 3), waiting(84));
    assert_eq!(port.tick(), Ok(Purged { frames: 0, octets: 0 }));
    assert_eq!(port.tick(), Ok(Purged { frames: 2, octets: 200 }));
    assert_eq!(port.transmit(), Ok(Sent::BestEffort { tag: 3 }));
    assert_eq!(port.transmit(), Ok(Sent::Nothing));
}
