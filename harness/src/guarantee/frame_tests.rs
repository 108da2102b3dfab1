//! The checkers' own tests of lists with Frames: what each counts as, and that it counts so in every claim.

use std::sync::Arc;

use crate::call::{Call, Reply};
use crate::guarantee::found::{Alike, Found, Link, Prompt};
use crate::guarantee::tests::{Hand, STREAM};
use crate::guarantee::{becoming, pairs};

impl Hand {
    /// A Bind of a stream to an address that has one octet in all its places, and VID 1.
    pub fn bind(&mut self, stream: u8, octet: u8, reply: Reply) {
        self.put(Call::Bind { stream, address: [octet; 6], vid: 1 }, reply);
    }

    /// A Frame to such an address with VID 1 that replies as said.
    pub fn frame(&mut self, octet: u8, length: usize, reply: Reply) -> usize {
        self.put(Call::Frame { octets: tagged(octet, length), tag: 7 }, reply)
    }
}

/// A frame of a length to an address that has one octet in all its places, with VID 1.
fn tagged(octet: u8, length: usize) -> Arc<[u8]> {
    let mut octets = [&[octet; 12][..], &[0x81, 0x00, 0xf0, 0x01]].concat();
    octets.resize(length, 0);
    octets.into()
}

/// What a Frame counts as goes by the Binds that were granted before it, and by its own octets.
#[test]
fn frames_count_as_what_they_become() {
    let mut hand = Hand::reserved(200);
    hand.bind(STREAM, 9, Reply::refused(9));
    hand.frame(9, 60, Reply::granted(84, 0));
    hand.bind(STREAM, 9, Reply::granted(0, 0));
    hand.put(Call::Reserve { stream: 6, permitted: 84 }, Reply::granted(316, 0));
    hand.bind(6, 8, Reply::granted(0, 0));
    for (octet, length, refusal) in [(9, 60, 0), (8, 1_996, 14), (7, 100, 16), (9, 59, 17)] {
        hand.frame(octet, length, Reply::refused(refusal));
    }
    let counted = becoming::counted(&hand.events);
    assert_eq!(counted[3], Call::BestEffort { charge: 84, tag: 7 });
    assert_eq!(counted[7], Call::Arrive { stream: STREAM, charge: 84, tag: 7 });
    assert_eq!(counted[8], Call::Arrive { stream: 6, charge: 2_020, tag: 7 });
    assert_eq!(counted[9], Call::BestEffort { charge: 124, tag: 7 });
    assert_eq!(counted[10], hand.events[10].call);
    for number in [0, 1, 2, 4, 5, 6] {
        assert_eq!(counted[number], hand.events[number].call);
    }
}

/// The VID is of 12 bits, the tag is 81 00, and the destination is octets 0 to 5.
#[test]
fn frames_count_by_their_header() {
    for (at, change, bound) in [(0, 1, false), (5, 1, false), (6, 1, true), (11, 1, true), (12, 1, false), (13, 1, false), (14, 0x10, true)]
        .into_iter()
        .chain([(14, 0x01, false), (14, 0x08, false), (15, 0x80, false), (16, 1, true)])
    {
        let mut octets = tagged(9, 60).to_vec();
        octets[at] ^= change;
        let mut hand = Hand::reserved(200);
        hand.bind(STREAM, 9, Reply::granted(0, 0));
        hand.put(Call::Frame { octets: octets.into(), tag: 7 }, Reply::granted(1, 0));
        let arrive = Call::Arrive { stream: STREAM, charge: 84, tag: 7 };
        assert_eq!(becoming::counted(&hand.events)[3] == arrive, bound);
    }
}

/// A frame is refused with 17 where its length is outside 60 to 1,996, and only there.
#[test]
fn lengths_of_frames_are_judged() {
    for (length, outside) in [(0, true), (59, true), (60, false), (1_519, false), (1_996, false), (1_997, true)] {
        for refused in [false, true] {
            let mut hand = Hand::reserved(200);
            let reply = if refused { Reply::refused(17) } else { Reply::granted(84, 0) };
            let number = hand.frame(9, length, reply);
            assert_eq!(hand.check().err(), (refused != outside).then_some(number));
        }
    }
}

/// A Frame that counts as an arrival is an offer, is accepted, and is sent as its stream's; one that does not is best effort.
#[test]
fn frames_are_arrivals() {
    for (before, in_time) in [(0, true), (1, true), (2, false)] {
        let mut hand = Hand::reserved(84);
        hand.bind(STREAM, 9, Reply::granted(0, 0));
        let frame = hand.frame(9, 60, Reply::granted(1, 84));
        let effort = hand.frame(8, 60, Reply::granted(84, 0));
        hand.ticks(before);
        hand.send(frame);
        hand.put_marked(Call::Transmit, Reply::granted(255, 7), Reply::granted(255, effort as u32));
        hand.ticks(2 - before);
        let after_first = u64::from(before == 1);
        let sent = Found { sent_as_replied: [1, 0, 0], sent_as_replied_late: after_first, ..Found::with(Link::ByIdle) };
        let found = Found { conforming: Prompt { current: 1, sent: 1, after_first }, frame_arrivals: 1, frame_best_efforts: 1, ..sent };
        assert_eq!(hand.check(), if in_time { Ok(found) } else { Err(frame) });
    }
    let mut hand = Hand::reserved(84);
    let frame = hand.frame(9, 60, Reply::granted(84, 0));
    hand.bind(STREAM, 9, Reply::granted(0, 0));
    hand.send(frame);
    assert_eq!(hand.check(), Err(4));
}

/// Offers by frames and by arrivals add up.
#[test]
fn offers_by_frames() {
    for (permitted, conforms) in [(167, false), (168, true)] {
        let mut hand = Hand::reserved(permitted);
        hand.bind(STREAM, 9, Reply::granted(0, 0));
        hand.current(84);
        let other = hand.frame(9, 60, Reply::granted(2, 0));
        assert_eq!(hand.check().err(), conforms.then_some(other));
    }
}

/// One of two lists that are alike may have an Arrive where the other has the Frame that becomes it.
#[test]
fn pairs_of_lists_by_frames() {
    let mut one = Hand::reserved(200);
    one.bind(STREAM, 9, Reply::granted(0, 0));
    one.frame(9, 60, Reply::granted(1, 116));
    one.frame(8, 60, Reply::granted(84, 0));
    one.current(84);
    let mut other = Hand::reserved(200);
    other.arrive(84, Reply::granted(1, 116));
    other.bind(STREAM, 8, Reply::granted(0, 0));
    other.frame(8, 60, Reply::granted(1, 0));
    assert_eq!(pairs::check(&one.events, &other.events, STREAM), Ok(Some(Alike { arrivals: 2, frames: 2, withdrawals: 0, counts: 0 })));
    other.events[2].reply = Reply::granted(1, 115);
    assert!(pairs::check(&one.events, &other.events, STREAM).is_err());
    other.events[3].reply = Reply::refused(10);
    assert_eq!(pairs::check(&one.events, &other.events, STREAM), Ok(None));
}
