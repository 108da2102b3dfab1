//! Every refusal of document 01 that a port can meet, by name and number, and the order in which they are asked.

use bunnysolder::{Framed, Port, Queue, Refusal};

use crate::{frame, joined, refused, reserved, waiting, ADDRESS, STREAM};

/// 3 where L is outside, before 4; 4 where K is.
#[test]
fn open_is_refused() {
    refused(Port::open(2_103, 0), Refusal::LinkRange, 3);
    refused(Port::open(u32::MAX, 17), Refusal::LinkRange, 3);
    refused(Port::open(2_620, 0), Refusal::DelayRange, 4);
    refused(Port::open(2_620, 17), Refusal::DelayRange, 4);
}

/// 5, 6, 7, 8 in this order.
#[test]
fn reserve_is_refused() {
    let mut port = reserved();
    refused(port.reserve(64, 83), Refusal::StreamRange, 5);
    refused(port.reserve(STREAM, 83), Refusal::ReservedAlready, 6);
    refused(port.reserve(6, 83), Refusal::PermittedRange, 7);
    refused(port.reserve(6, 401), Refusal::ShareExceeded, 8);
    refused(port.reserve(6, u32::MAX), Refusal::ShareExceeded, 8);
}

/// 5, 12, 13, 14 in this order; 14 leaves nothing.
#[test]
fn arrive_is_refused() {
    let mut port = reserved();
    refused(port.arrive(64, 83, 1), Refusal::StreamRange, 5);
    refused(port.arrive(6, 83, 1), Refusal::NotReserved, 12);
    refused(port.arrive(STREAM, 83, 1), Refusal::ChargeRange, 13);
    refused(port.arrive(STREAM, 2_021, 1), Refusal::ChargeRange, 13);
    assert_eq!(port.arrive(STREAM, 100, 1), joined(Queue::Current, 100));
    refused(port.arrive(STREAM, 201, 2), Refusal::Discard, 14);
    refused(port.arrive(STREAM, 84, 3), Refusal::Discard, 14);
}

/// 13, 15, 16 in this order.
#[test]
fn best_effort_is_refused() {
    let mut port = of_256_frames();
    for frames in 1..=255 {
        assert_eq!(port.best_effort(84, frames), waiting(84 * frames));
    }
    refused(port.best_effort(85, 256), Refusal::LimitExceeded, 16);
    assert_eq!(port.best_effort(84, 256), waiting(21_504));
    refused(port.best_effort(83, 257), Refusal::ChargeRange, 13);
    refused(port.best_effort(84, 257), Refusal::BestEffortFull, 15);
}

/// 5, 12, 9, 10, 11 in this order.
#[test]
fn bind_is_refused() {
    let mut port = reserved();
    refused(port.bind(64, &ADDRESS, 0), Refusal::StreamRange, 5);
    refused(port.bind(6, &ADDRESS, 0), Refusal::NotReserved, 12);
    refused(port.bind(STREAM, &ADDRESS, 0), Refusal::VidRange, 9);
    assert_eq!(port.bind(STREAM, &ADDRESS, 4_094), Ok(()));
    refused(port.bind(STREAM, &ADDRESS, 4_095), Refusal::VidRange, 9);
    refused(port.bind(STREAM, &ADDRESS, 4_094), Refusal::BoundAlready, 10);
    assert!(port.reserve(6, 84).is_ok());
    refused(port.bind(6, &ADDRESS, 4_094), Refusal::PairBoundAlready, 11);
}

/// 17 before 14, where the frame's pair is bound.
#[test]
fn a_frame_that_arrives_is_refused() {
    let mut port = reserved();
    assert_eq!(port.bind(STREAM, &ADDRESS, 1), Ok(()));
    let bound = frame(1);
    for length in [0, 59, 1_997] {
        refused(port.frame(&bound[..length], 1), Refusal::FrameLength, 17);
    }
    refused(port.frame(&bound[..1_996], 1), Refusal::Discard, 14);
    refused(port.frame(&bound[..1_997], 1), Refusal::FrameLength, 17);
    refused(port.frame(&bound[..60], 1), Refusal::Discard, 14);
}

/// 17 before 15 and 16, where it is not: frames of 60 octets, a charge of 84 each, on the port of 256 such frames.
#[test]
fn a_frame_of_best_effort_is_refused() {
    let mut port = of_256_frames();
    let unbound = frame(2);
    for frames in 1..=255 {
        assert_eq!(port.frame(&unbound[..60], frames), waiting(84 * frames).map(Framed::BestEffort));
    }
    refused(port.frame(&unbound[..61], 256), Refusal::LimitExceeded, 16);
    assert_eq!(port.frame(&unbound[..60], 256), waiting(21_504).map(Framed::BestEffort));
    refused(port.frame(&unbound[..59], 257), Refusal::FrameLength, 17);
    refused(port.frame(&unbound[..60], 257), Refusal::BestEffortFull, 15);
}

/// A port on which 256 best-effort frames of 84 octets make W just K × (L − R): 1 × (21,588 − 84) = 21,504 = 256 × 84.
fn of_256_frames() -> Port {
    let mut port = Port::open(21_588, 1).expect("L and K are in their ranges");
    assert!(port.reserve(STREAM, 84).is_ok());
    port
}
