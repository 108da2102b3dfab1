//! Request 2 of document 02, "Envelope frames": frames "of up to 2,000 octets with check sequence", which are 1,996 without it, through Frame; and
//! what follows for charges, for the share and for L.

use bunnysolder::{Framed, Port, Purged, Queue, Refusal, Reserved, Sent, LONGEST_FRAME, SHORTEST_FRAME};

use crate::{frame, joined, refused, waiting, ADDRESS, STREAM};

/// A stream whose P is less than the largest charge.
const NARROW: u8 = 6;

/// A port whose share is 9,145 − 2,020 = 7,125. The stream of the cases has 1,543 + 2,020 = 3,563 of it and VID 1, the narrow stream 2,019 and VID 2.
/// The limit on W is 9,145 − 3,563 − 2,019 = 3,563.
fn wide() -> Port {
    let mut port = Port::open(9_145, 1).expect("L and K are in their ranges");
    assert_eq!(port.reserve(STREAM, 3_563), Ok(Reserved { free: 3_562 }));
    assert_eq!(port.reserve(NARROW, 2_019), Ok(Reserved { free: 1_543 }));
    assert_eq!(port.bind(STREAM, &ADDRESS, 1), Ok(()));
    assert_eq!(port.bind(NARROW, &ADDRESS, 2), Ok(()));
    port
}

/// Octets to the same address without a VLAN tag, one more than a frame may have.
fn untagged() -> [u8; LONGEST_FRAME + 1] {
    let mut octets = frame(1);
    octets[12] = 0x08;
    octets
}

/// Frames of 1,519 and 1,996 octets arrive with the charges 1,543 and 2,020, which fill P; one of 1,997 is refused, and the next shows that nothing
/// changed.
#[test]
fn a_stream_takes_the_longest_frames() {
    let (mut port, bound) = (wide(), frame(1));
    assert_eq!(port.frame(&bound[..1_519], 1), joined(Queue::Current, 2_020).map(Framed::Arrived));
    refused(port.frame(&bound[..1_997], 2), Refusal::FrameLength, 17);
    assert_eq!(port.frame(&bound[..1_996], 3), joined(Queue::Current, 3_563).map(Framed::Arrived));
    refused(port.frame(&bound[..1_997], 4), Refusal::FrameLength, 17);
    assert_eq!(port.frame(&bound[..60], 5), joined(Queue::Next, 3_479).map(Framed::Arrived));
    for tag in [1, 3] {
        assert_eq!(port.transmit(), Ok(Sent::Reserved { stream: STREAM, tag }));
    }
    assert_eq!(port.transmit(), Ok(Sent::Nothing));
}

/// Where P is 2,019, a frame of 1,519 octets arrives and one of 1,996 is discarded; one of 1,997 is refused with 17, before and after.
#[test]
fn a_stream_with_less_discards_the_longest_frame() {
    let (mut port, bound) = (wide(), frame(2));
    refused(port.frame(&bound[..1_997], 1), Refusal::FrameLength, 17);
    assert_eq!(port.frame(&bound[..1_519], 2), joined(Queue::Current, 476).map(Framed::Arrived));
    refused(port.frame(&bound[..1_996], 3), Refusal::Discard, 14);
    refused(port.frame(&bound[..1_997], 4), Refusal::FrameLength, 17);
    refused(port.frame(&bound[..60], 5), Refusal::Discard, 14);
}

/// Frames of 1,519 and 1,996 octets that no stream has are best effort and fill its limit; one of 1,997 is refused, and W shows that nothing changed.
#[test]
fn best_effort_takes_the_longest_frames() {
    for octets in [untagged(), frame(3)] {
        let mut port = wide();
        assert_eq!(port.frame(&octets[..1_519], 1), waiting(1_543).map(Framed::BestEffort));
        refused(port.frame(&octets[..1_997], 2), Refusal::FrameLength, 17);
        assert_eq!(port.frame(&octets[..1_996], 3), waiting(3_563).map(Framed::BestEffort));
        refused(port.frame(&octets[..60], 4), Refusal::LimitExceeded, 16);
        refused(port.frame(&octets[..1_997], 5), Refusal::FrameLength, 17);
        for tag in [1, 3] {
            assert_eq!(port.transmit(), Ok(Sent::BestEffort { tag }));
        }
        assert_eq!(port.transmit(), Ok(Sent::Nothing));
    }
}

/// Of every length up to 3,000, a frame from 60 to 1,996 octets arrives with its length plus 24 as its charge, and every other is refused.
#[test]
fn every_length_has_its_charge() {
    let mut octets = frame(1).to_vec();
    octets.resize(3_000, 0);
    for length in 0..=octets.len() {
        let replied = wide().frame(&octets[..length], 1);
        match length {
            60..=1_996 => assert_eq!(replied, joined(Queue::Current, 3_563 - 24 - length as u32).map(Framed::Arrived)),
            _ => refused(replied, Refusal::FrameLength, 17),
        }
    }
}

/// The constants are what the library takes: a frame of either length, and none that is an octet shorter or longer.
#[test]
fn the_constants_are_the_lengths_that_are_taken() {
    let taken = |length: usize| wide().frame(&untagged()[..length], 1);
    assert_eq!((SHORTEST_FRAME, LONGEST_FRAME), (60, 1_996));
    assert_eq!(taken(SHORTEST_FRAME), waiting(84).map(Framed::BestEffort));
    assert_eq!(taken(LONGEST_FRAME), waiting(2_020).map(Framed::BestEffort));
    refused(taken(SHORTEST_FRAME - 1), Refusal::FrameLength, 17);
    refused(taken(LONGEST_FRAME + 1), Refusal::FrameLength, 17);
}

/// "The largest charge becomes 2,020": 1,543 and 2,020 are taken and 2,021 is 13, before 14, as arrivals and as best effort.
#[test]
fn charges_to_the_largest() {
    let mut port = wide();
    assert_eq!(port.arrive(STREAM, 1_543, 1), joined(Queue::Current, 2_020));
    refused(port.arrive(STREAM, 2_021, 2), Refusal::ChargeRange, 13);
    assert_eq!(port.arrive(STREAM, 2_020, 3), joined(Queue::Current, 3_563));
    refused(port.arrive(NARROW, 2_021, 4), Refusal::ChargeRange, 13);
    assert_eq!(port.arrive(NARROW, 1_543, 5), joined(Queue::Current, 476));
    refused(port.arrive(NARROW, 2_020, 6), Refusal::Discard, 14);
    assert_eq!(port.best_effort(1_543, 7), waiting(1_543));
    refused(port.best_effort(2_021, 8), Refusal::ChargeRange, 13);
    assert_eq!(port.best_effort(2_020, 9), waiting(3_563));
    assert_eq!(port.tick(), Ok(Purged { frames: 0, octets: 0 }));
    assert_eq!(port.tick(), Ok(Purged { frames: 3, octets: 1_543 + 2_020 + 1_543 }));
}

/// "the share is L − 2,020 and L runs from 2,104 to 23,524".
#[test]
fn links_to_their_ends() {
    for link in [0, 1_626, 2_020, 2_103, 23_525] {
        refused(Port::open(link, 1), Refusal::LinkRange, 3);
    }
    for (link, share) in [(2_104, 84), (2_142, 122), (23_046, 21_026), (23_047, 21_027), (23_524, 21_504)] {
        assert_eq!(Port::open(link, 1).map(|port| port.share()), Ok(share));
    }
}
