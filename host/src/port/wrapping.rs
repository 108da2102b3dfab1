//! Counts at their end: "The counter registers wrap from 4,294,967,295 to 0", and a stream's counts are "taken modulo 4,294,967,296". No test has
//! the time for as many calls, so these write the octets in which a count stands.

use harness::layout;

use super::Port;
use crate::{Control, Controlled, Refusal, Sent, StreamCounts};

/// The streams of these tests, each with P 200: those at both ends, and one between them.
const WITH_FRAMES: [u8; 3] = [0, 5, 63];
/// The octets of a count.
const COUNT_OCTETS: usize = 4;

/// A port with these streams, whose count at a place of the register block is at its end.
fn at_the_end(count: usize) -> Port {
    let mut port = Port::open(2_620, 1).expect("L and K are in their ranges");
    WITH_FRAMES.iter().for_each(|&stream| assert!(port.reserve(stream, 200).is_ok()));
    port.octets[layout::in_block(count)..][..COUNT_OCTETS].fill(u8::MAX);
    port
}

/// That port, and the stream whose count it is: one of the two in its counts.
fn of_each_stream(count: usize) -> impl Iterator<Item = (Port, u8)> {
    WITH_FRAMES.into_iter().map(move |stream| (at_the_end(layout::counts(usize::from(stream)) + count), stream))
}

/// The counts of a stream are these, and all others 0; the registers show the same of the stream, which is chosen.
fn alone_has(port: &mut Port, stream: u8, accepted: u32, discarded: u32) {
    let counts = StreamCounts { accepted, discarded };
    let all = port.stream_counts();
    assert_eq!(all[usize::from(stream)], counts);
    assert_eq!(all.iter().filter(|other| **other != StreamCounts::default()).count(), usize::from(counts != StreamCounts::default()));
    port.set_choice(u32::from(stream));
    assert_eq!(port.chosen_counts(), counts);
}

/// Frames of a stream; best effort leaves its count at the end.
#[test]
fn accepted_frames() {
    for (mut port, stream) in of_each_stream(layout::ACCEPTED) {
        assert!(port.best_effort(84, 1).is_ok());
        alone_has(&mut port, stream, u32::MAX, 0);
        assert!(port.arrive(stream, 84, 2).is_ok());
        alone_has(&mut port, stream, 0, 0);
        assert!(port.arrive(stream, 84, 3).is_ok());
        alone_has(&mut port, stream, 1, 0);
    }
}

/// Charges over P; the flag stands whatever the count is.
#[test]
fn discarded_frames() {
    for (mut port, stream) in of_each_stream(layout::DISCARDED) {
        alone_has(&mut port, stream, 0, u32::MAX);
        assert_eq!(port.arrive(stream, 201, 1), Err(Refusal::Discard));
        alone_has(&mut port, stream, 0, 0);
        assert!(port.flags().discard);
        assert_eq!(port.arrive(stream, 201, 2), Err(Refusal::Discard));
        alone_has(&mut port, stream, 0, 1);
    }
}

/// A withdrawal sets a count to 0 from its end too.
#[test]
fn withdrawn_streams() {
    for count in [layout::ACCEPTED, layout::DISCARDED] {
        for (mut port, stream) in of_each_stream(count) {
            assert_eq!(port.withdraw(stream), Ok(()));
            alone_has(&mut port, stream, 0, 0);
        }
    }
}

/// Frames of a stream, then of best effort, the second by a write to control.
#[test]
fn sent_frames() {
    let mut port = at_the_end(layout::SENT);
    assert!(port.arrive(5, 84, 1).is_ok());
    assert!(port.best_effort(84, 2).is_ok());
    assert_eq!(port.frames_sent(), u32::MAX);
    assert_eq!(port.transmit(), Ok(Sent::Reserved { stream: 5, tag: 1 }));
    assert_eq!(port.frames_sent(), 0);
    let sent = Controlled::Transmitted(Sent::BestEffort { tag: 2 });
    assert_eq!(port.control(Control { tick: false, transmit: true }), Ok(sent));
    assert_eq!(port.frames_sent(), 1);
    alone_has(&mut port, 5, 1, 0);
}
