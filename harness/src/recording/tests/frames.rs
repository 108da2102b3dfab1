//! What a packet becomes: the call that Frame would make of it, padding, and 17.

use super::made::{captured, events_of, streamed, tagged, typed, untagged, Form, ADDRESS, ORDINARY, PLAN};
use crate::call::{Call, Given, Reply};
use crate::capture::reading;
use crate::comparing::fit::Octets;
use crate::exports;
use crate::model::refusal::FRAME_LENGTH;
use crate::recording::frames::frame;
use crate::recording::pcap::{Packet, FRONT};
use crate::recording::report::Packets;

/// The call that one packet becomes under the plan, or none.
fn becomes(octets: Vec<u8>) -> Option<Call> {
    events_of(PLAN, &[(0, octets)]).0.get(2).cloned()
}

/// An arrival of packet 1 on the plan's stream.
const fn arrives(charge: u32) -> Option<Call> {
    Some(Call::Arrive { stream: 5, charge, tag: 1 })
}

/// Packet 1 as best effort.
const fn best_effort(charge: u32) -> Option<Call> {
    Some(Call::BestEffort { charge, tag: 1 })
}

#[test]
fn a_bound_pair_is_an_arrival_whatever_its_priority() {
    for control in [0x000a, 0x100a, 0xe00a, 0xf00a] {
        assert_eq!(becomes(tagged(ADDRESS, control, 60)), arrives(84), "{control:04x}");
    }
}

#[test]
fn another_pair_is_best_effort() {
    for control in [0x0000, 0x0009, 0x000b, 0x010a, 0x080a, 0x0a00, 0x0fff] {
        assert_eq!(becomes(tagged(ADDRESS, control, 60)), best_effort(84), "{control:04x}");
    }
    for place in 0..6 {
        let mut address = ADDRESS;
        address[place] ^= 1;
        assert_eq!(becomes(tagged(address, 10, 60)), best_effort(84), "octet {place}");
    }
    // Zeros are what the model has of a stream that is not bound.
    assert_eq!(becomes(tagged([0; 6], 0, 60)), best_effort(84));
}

#[test]
fn a_frame_that_is_not_tagged_is_best_effort() {
    for kind in [[0x88, 0xa8], [0x08, 0x00], [0x81, 0x01], [0x82, 0x00], [0x00, 0x81], [0x91, 0x00]] {
        assert_eq!(becomes(typed(ADDRESS, [kind, [0x00, 0x0a]].concat(), 60)), best_effort(84), "{kind:02x?}");
    }
}

#[test]
fn each_stream_has_its_own_pair() {
    let plan = "epoch 200000\nopen 2500 1\nreserve 63 84\nreserve 0 84\nbind 0 00:00:00:00:00:00 4094\nbind 63 00:00:00:00:00:00 1\n";
    let frame = |control| (0, tagged([0; 6], control, 60));
    let (events, _) = events_of(plan, &[frame(1), frame(4_094), frame(2)]);
    let of_packets: Vec<&Call> = events.iter().filter(|call| !matches!(call, Call::Tick | Call::Transmit)).skip(3).collect();
    let [first, second] = [(63, 1), (0, 2)].map(|(stream, tag)| Call::Arrive { stream, charge: 84, tag });
    assert_eq!(of_packets, [&first, &second, &Call::BestEffort { charge: 84, tag: 3 }]);
}

#[test]
fn a_frame_has_the_charge_of_its_length() {
    let charges = [(60, 84), (61, 85), (100, 124), (1_518, 1_542), (1_519, 1_543), (1_995, 2_019), (1_996, 2_020)];
    for (length, charge) in charges {
        assert_eq!(becomes(untagged(length)), best_effort(charge));
        assert_eq!(becomes(streamed(length)), arrives(charge));
        assert_eq!(events_of(PLAN, &[(0, untagged(length))]).1.padded, Packets::default());
    }
}

#[test]
fn a_short_frame_counts_as_padded() {
    for length in [14, 15, 16, 17, 46, 59] {
        assert_eq!(becomes(untagged(length)), best_effort(84), "{length} octets");
        let (_, report) = events_of(PLAN, &[(0, untagged(60)), (0, untagged(length))]);
        assert_eq!((report.padded, report.best_effort), (Packets { count: 1, first: vec![2] }, 2), "{length} octets");
    }
    assert_eq!(becomes(streamed(59)), arrives(84));
    assert_eq!(becomes(streamed(16)), arrives(84));
    assert_eq!(becomes(typed(ADDRESS, vec![0x81, 0x00, 0x00], 15)), best_effort(84));
}

#[test]
fn the_octets_of_padding_are_zeros() {
    let plan = "epoch 200000\nopen 2500 1\nreserve 5 200\nbind 5 01:00:5e:00:00:05 256\n";
    let short = typed(ADDRESS, vec![0x81, 0x00, 0x01], 15);
    assert_eq!(events_of(plan, &[(0, short)]).0[2], Call::Arrive { stream: 5, charge: 84, tag: 1 });
}

#[test]
fn what_frame_refuses_with_17_has_no_event() {
    for octets in [untagged(1_997), streamed(1_997), streamed(9_000), vec![0; 13], vec![]] {
        let (events, report) = events_of(PLAN, &[(0, octets), (0, streamed(60))]);
        assert_eq!(events[2], Call::Arrive { stream: 5, charge: 84, tag: 2 });
        assert_eq!((report.packets, report.arrivals), (2, 1));
        assert_eq!(report.refused, Packets { count: 1, first: vec![1] });
    }
}

/// What the proved Frame replies to octets of no stream, as the first of a port.
fn proved(octets: &[u8]) -> Reply {
    let Octets { mut record, mut memory } = Octets::zero();
    let mut play = |call: &Given| exports::unscanned(call, &mut record, &mut memory);
    assert_eq!(play(&Call::Open { link: 2_620, delay: 1 }), Reply::granted(600, 0));
    play(&Call::Frame { octets, tag: 1 })
}

#[test]
fn the_proved_frame_refuses_with_17_just_what_has_no_event() {
    for length in 0..=2_100 {
        let packet = Packet { number: 1, time: 0, length, front: [0; FRONT] };
        match frame(&packet) {
            Some(frame) => assert_eq!(proved(&frame.octets), Reply::granted(length.max(60) + 24, 0), "{length} octets"),
            None => assert_eq!(proved(&vec![0; length as usize]), Reply::refused(FRAME_LENGTH), "{length} octets"),
        }
    }
}

#[test]
fn the_charge_is_that_of_the_wire() {
    let form = Form { snap_length: 16, link_type: 0x2400_0001, ..ORDINARY };
    let packets = [(0, streamed(2_000)), (0, streamed(63)), (0, streamed(2_001))];
    let (capture, report) = captured(PLAN, &form.recording(&packets));
    assert_eq!((report.arrivals, report.padded.first, report.refused.first), (2, vec![2], vec![3]));
    assert_eq!(reading::text(&capture).lines().nth(3), Some("arrive 5 2020 1"));
}
