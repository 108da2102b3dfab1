//! The checkers' own tests: lists with replies that no port need ever have given, each of which breaks one claim, or just does not. Those with
//! Frames are in `frame_tests`, those with Withdraws in `withdraw_tests`, those with accesses to registers in `register_tests`.

use crate::call::{Call, Given, Reply};
use crate::comparing::fit::Octets;
use crate::guarantee::found::{Alike, Found, Link, Prompt};
use crate::guarantee::list::{Event, Playing};
use crate::guarantee::{claims, pairs};
use crate::model;

/// The stream of these tests, and the share at the L that they open with.
pub const STREAM: u8 = 5;
const LINK: u32 = 2_620;
const SHARE: u32 = 600;

/// The words about a frame that a stream is promised for as long as it conforms.
const CONFORMED: &str = "though its stream had not offered more than P up to it";

/// A list that is written by hand.
pub struct Hand {
    pub events: Vec<Event>,
}

impl Hand {
    /// A list after a granted Open.
    pub fn opened() -> Hand {
        let mut hand = Hand { events: Vec::new() };
        hand.put(Call::Open { link: LINK, delay: 1 }, Reply::granted(SHARE, 0));
        hand
    }

    /// A list after a granted Open and a granted Reserve.
    pub fn reserved(permitted: u32) -> Hand {
        let mut hand = Hand::opened();
        hand.put(Call::Reserve { stream: STREAM, permitted }, Reply::granted(SHARE - permitted, 0));
        hand
    }

    /// A call with its reply, the same in both plays; its number.
    pub fn put(&mut self, call: Call, reply: Reply) -> usize {
        self.put_marked(call, reply, reply)
    }

    /// A call with its reply in each play, both with the same record after it; its number.
    pub fn put_marked(&mut self, call: Call, reply: Reply, marked: Reply) -> usize {
        self.events.push(Event { call, reply, marked, apart: None });
        self.events.len() - 1
    }

    /// An Arrive that replies as said.
    pub fn arrive(&mut self, charge: u32, reply: Reply) -> usize {
        self.put(Call::Arrive { stream: STREAM, charge, tag: 7 }, reply)
    }

    /// An Arrive that is accepted as current.
    pub fn current(&mut self, charge: u32) -> usize {
        self.arrive(charge, Reply::granted(1, 0))
    }

    /// A Transmit that sends the frame of a call.
    pub fn send(&mut self, frame: usize) {
        self.put_marked(Call::Transmit, Reply::granted(STREAM.into(), 7), Reply::granted(STREAM.into(), frame as u32));
    }

    /// A Transmit that sends nothing.
    fn idle(&mut self) {
        self.put(Call::Transmit, Reply::granted(254, 0));
    }

    /// A Tick that purges nothing.
    pub fn tick(&mut self) {
        self.put(Call::Tick, Reply::granted(0, 0));
    }

    /// So many of these, with an idle transmit before each.
    pub fn ticks(&mut self, ticks: usize) {
        for _ in 0..ticks {
            self.idle();
            self.tick();
        }
    }

    /// What is found, or the number of the call that breaks the claim.
    pub fn check(&self) -> Result<Found, usize> {
        claims::check(&self.events).map_err(|broken| broken.call)
    }

    /// The words about the call that breaks the claim.
    pub fn words(&self) -> String {
        claims::check(&self.events).expect_err("the list breaks a claim").words
    }

    /// How the list meets the link condition.
    fn link(&self) -> Link {
        self.check().expect("the list keeps the claim").link
    }
}

/// The first call is a granted Open.
#[test]
fn list_begins_with_a_granted_open() {
    assert_eq!(claims::check(&[]).map_err(|broken| broken.call), Err(0));
    let mut hand = Hand::opened();
    hand.events[0].reply = Reply::refused(2);
    assert_eq!(hand.check(), Err(0));
    hand.events[0].call = Call::Tick;
    hand.events[0].reply = Reply::granted(0, 0);
    assert_eq!(hand.check(), Err(0));
}

/// 18, 19 and 20 are never met.
#[test]
fn refusals_that_are_never_met() {
    for refusal in 15..=21 {
        let mut hand = Hand::opened();
        let number = hand.arrive(84, Reply::refused(refusal));
        assert_eq!(hand.check().err(), [18, 19, 20].contains(&refusal).then_some(number));
    }
}

/// The two plays reply alike but for a Transmit's tag.
#[test]
fn replies_do_not_depend_on_tags() {
    for marked in [Reply::granted(1, 1), Reply::granted(2, 0), Reply::refused(14)] {
        let mut hand = Hand::reserved(200);
        let number = hand.current(84);
        hand.events[number].marked = marked;
        assert_eq!(hand.check(), Err(number));
    }
    let mut hand = Hand::opened();
    hand.idle();
    hand.events[1].marked = Reply::granted(255, 0);
    assert_eq!(hand.check(), Err(1));
}

/// The two plays leave the same record.
#[test]
fn records_do_not_depend_on_tags() {
    let mut hand = Hand::reserved(200);
    let number = hand.current(84);
    assert!(hand.check().is_ok());
    for (octet, field) in [(1, "prior"), (12, "spare"), (64, "reserved mark of stream 0")] {
        hand.events[number].apart = Some(octet);
        assert_eq!(hand.check(), Err(number));
        assert_eq!(hand.words(), format!("octet {octet} of the record, {field}, is another where tags are"));
    }
}

/// A play that compares the records sees where a port's record has something of a tag.
#[test]
fn plays_are_compared() {
    let calls = [Call::Open { link: LINK, delay: 1 }, Call::BestEffort { charge: 84, tag: 7 }, Call::Tick];
    let apart = |play| {
        let mut playing = Playing::new(play, &Octets::zero());
        calls.clone().map(|call| playing.call(call).apart)
    };
    assert_eq!(apart(model::call), [None; 3]);
    assert_eq!(apart(keeps_the_tag), [None, Some(12), Some(12)]);
}

/// A port that keeps an octet of the tag in a spare octet of its record.
fn keeps_the_tag(call: &Given, record: &mut [u8], memory: &mut [u8]) -> Reply {
    if let Call::BestEffort { tag, .. } = *call {
        record[12] = tag as u8;
    }
    model::call(call, record, memory)
}

/// A frame that is sent beside another which marks alone tell from it counts, in whatever order the two are sent.
#[test]
fn frames_that_marks_alone_tell_apart() {
    for (other, second_first, twins) in [(84, false, 1), (84, true, 1), (85, false, 0)] {
        let mut hand = Hand::reserved(200);
        let frames = [hand.current(84), hand.current(other)];
        hand.send(frames[usize::from(second_first)]);
        assert_eq!(hand.check().map(|found| found.twins), Ok(0));
        hand.send(frames[usize::from(!second_first)]);
        assert_eq!(hand.check().map(|found| found.twins), Ok(twins));
        let later = hand.current(other);
        hand.send(later);
        assert_eq!(hand.check().map(|found| found.twins), Ok(twins));
    }
}

/// A frame that is sent was accepted before, has its stream and tag, and is sent once.
#[test]
fn frames_sent_are_accepted_ones() {
    let mut hand = Hand::reserved(100);
    let (accepted, discarded) = (hand.current(84), hand.arrive(84, Reply::refused(14)));
    hand.send(accepted);
    assert!(hand.check().is_ok());
    hand.send(accepted);
    assert_eq!(hand.check(), Err(5));
    for frame in [0, 1, discarded, 4, 99] {
        hand.events.truncate(4);
        hand.send(frame);
        assert_eq!(hand.check(), Err(4));
    }
    for (reply, marked) in [((6, 7), (6, 2)), ((5, 8), (5, 2)), ((5, 7), (6, 2)), ((255, 7), (255, 2))] {
        let (reply, marked) = (Reply::granted(reply.0, reply.1), Reply::granted(marked.0, marked.1));
        hand.events.truncate(4);
        hand.put_marked(Call::Transmit, reply, marked);
        assert_eq!(hand.check(), Err(4));
    }
}

/// Just the share between two ticks meets the link condition, and one octet less does not.
#[test]
fn link_condition_by_octets() {
    for (charge, link) in [(SHARE - 1, Link::Failed), (SHARE, Link::ByOctets), (SHARE + 1, Link::ByOctets)] {
        let mut hand = Hand::reserved(SHARE);
        let frame = hand.current(charge);
        hand.tick();
        hand.send(frame);
        hand.tick();
        assert_eq!(hand.link(), link);
        hand.idle();
        hand.tick();
        assert_eq!(hand.link(), if charge < SHARE { Link::Failed } else { Link::ByBoth });
    }
}

/// A transmit that sends nothing or best effort meets the link condition, between any two ticks each time anew.
#[test]
fn link_condition_by_idle_transmits() {
    let mut hand = Hand::opened();
    let effort = hand.put(Call::BestEffort { charge: 84, tag: 7 }, Reply::granted(84, 0));
    hand.tick();
    assert_eq!(hand.link(), Link::NothingToMeet);
    hand.put_marked(Call::Transmit, Reply::granted(255, 7), Reply::granted(255, effort as u32));
    hand.tick();
    assert_eq!(hand.link(), Link::ByIdle);
    hand.ticks(1);
    assert_eq!(hand.link(), Link::ByIdle);
    hand.tick();
    assert_eq!(hand.link(), Link::Failed);
}

/// What is sent before the first tick or after the last counts between no ticks.
#[test]
fn link_condition_between_ticks_alone() {
    let mut hand = Hand::reserved(SHARE);
    let frame = hand.current(SHARE);
    hand.send(frame);
    hand.idle();
    hand.tick();
    hand.tick();
    hand.idle();
    assert_eq!(hand.link(), Link::Failed);
}

/// A tick that purges, or is refused, breaks the claim where the link condition holds, and only there.
#[test]
fn ticks_that_purge() {
    for reply in [Reply::granted(1, 84), Reply::granted(1, 0), Reply::granted(0, 84), Reply::refused(1)] {
        let mut failed = Hand::opened();
        failed.ticks(2);
        failed.put(Call::Tick, reply);
        assert_eq!(failed.check(), Ok(Found { purging: 1, ..Found::with(Link::Failed) }));
        let mut met = Hand::opened();
        met.ticks(2);
        met.idle();
        let number = met.put(Call::Tick, reply);
        assert_eq!(met.check(), Err(number));
    }
}

/// An accepted frame is sent before the fourth tick after it, where the list reaches that tick.
#[test]
fn accepted_frames_within_four_ticks() {
    for before in 0..=5 {
        let mut hand = Hand::reserved(100);
        let (first, late) = (hand.current(84), hand.arrive(84, Reply::granted(3, 16)));
        hand.send(first);
        hand.ticks(before);
        hand.send(late);
        assert_eq!(hand.check().err(), (before >= 4).then_some(late));
        hand.ticks(5 - before);
        let after_third = u64::from(before == 3);
        let sent = Found { sent_in_time: 2, sent_after_third: after_third, ..Found::with(Link::ByIdle) };
        let sent = Found { sent_as_replied: [1, 0, 1], sent_as_replied_late: after_third, ..sent };
        let found = Found { beginning: Prompt { current: 1, sent: 1, after_first: 0 }, twins: 1, ..sent };
        assert_eq!(hand.check(), if before < 4 { Ok(found) } else { Err(late) });
    }
    for ticks in 0..=5 {
        let mut hand = Hand::reserved(100);
        let (_, unsent) = (hand.arrive(101, Reply::refused(14)), hand.arrive(84, Reply::granted(3, 16)));
        hand.ticks(ticks);
        assert_eq!(hand.check().err(), (ticks >= 4).then_some(unsent));
        if ticks >= 4 {
            assert_eq!(hand.words(), "its frame is not sent before the fourth tick after it");
        }
    }
}

/// A frame that is accepted into queue k is sent before tick k + 1 after it, where the list reaches that tick.
#[test]
fn accepted_frames_as_replied() {
    for (queue, before) in (1..=3).flat_map(|queue| (0..=3).map(move |before| (queue, before))) {
        let mut hand = Hand::reserved(84);
        hand.arrive(85, Reply::refused(14));
        let frame = hand.arrive(84, Reply::granted(queue, 0));
        hand.ticks(before);
        hand.send(frame);
        hand.ticks(3 - before);
        let in_time = before <= queue as usize;
        assert_eq!(hand.check().err(), (!in_time).then_some(frame));
        if !in_time {
            assert_eq!(hand.words(), format!("its frame joined queue {queue}, and is not sent before tick {} after it", queue + 1));
            continue;
        }
        let mut found = Found { sent_as_replied_late: u64::from(before == queue as usize && queue < 3), ..Found::with(Link::ByIdle) };
        found.sent_as_replied[queue as usize - 1] = u64::from(queue < 3);
        assert_eq!(hand.check(), Ok(found));
    }
}

/// An accepted frame's reply names a queue that arrivals join; nothing is asked of it where the link condition fails.
#[test]
fn queues_that_arrivals_join() {
    for queue in [0, 4, u32::MAX] {
        let mut hand = Hand::reserved(84);
        hand.arrive(85, Reply::refused(14));
        let frame = hand.arrive(84, Reply::granted(queue, 0));
        assert_eq!(hand.check(), Err(frame));
        assert_eq!(hand.words(), format!("it replies queue {queue}, which no arrival joins"));
        hand.tick();
        hand.tick();
        assert_eq!(hand.link(), Link::Failed);
    }
}

/// A conforming stream's frame is sent before the second tick after it, where the list reaches that tick.
#[test]
fn conforming_frames_within_two_ticks() {
    for before in 0..=3 {
        let mut hand = Hand::reserved(84);
        let frame = hand.current(84);
        hand.ticks(before);
        hand.send(frame);
        hand.ticks(3 - before);
        let after_first = u64::from(before == 1);
        let sent = Found { sent_as_replied: [1, 0, 0], sent_as_replied_late: after_first, ..Found::with(Link::ByIdle) };
        let found = Found { conforming: Prompt { current: 1, sent: 1, after_first }, ..sent };
        assert_eq!(hand.check(), if before < 2 { Ok(found) } else { Err(frame) });
    }
    let mut hand = Hand::reserved(84);
    hand.current(84);
    hand.ticks(1);
    assert_eq!(hand.check(), Ok(Found { conforming: current(1), ..Found::with(Link::NothingToMeet) }));
}

/// So many arrivals that are accepted as current, and for which the list ends before the second tick.
pub fn current(current: u64) -> Prompt {
    Prompt { current, ..Prompt::default() }
}

/// A stream that offers more than P at last has each frame until then accepted as current, and nothing is asked of those from then on.
#[test]
fn streams_that_conform_for_a_while() {
    for stretches in 0..=2 {
        let mut hand = Hand::reserved(168);
        for _ in 0..stretches {
            let (first, second) = (hand.current(84), hand.current(84));
            hand.send(first);
            hand.send(second);
            hand.ticks(1);
        }
        let last = hand.current(100);
        assert_eq!(hand.check().map(|found| (found.conforming.current, found.beginning.current)), Ok((2 * stretches + 1, 0)));
        hand.arrive(84, Reply::granted(2, 84));
        hand.arrive(169, Reply::refused(14));
        assert_eq!(hand.check().map(|found| (found.conforming.current, found.beginning.current)), Ok((0, 2 * stretches + 1)));
        for reply in [Reply::granted(2, 68), Reply::refused(14)] {
            (hand.events[last].reply, hand.events[last].marked) = (reply, reply);
            assert_eq!(hand.check(), Err(last));
            assert_eq!(hand.words(), format!("it replies {reply}, {CONFORMED}"));
        }
    }
}

/// A frame that a stream offers before it offers more than P is sent before the second tick after it, where the list reaches that tick.
#[test]
fn beginnings_within_two_ticks() {
    for before in 0..=3 {
        let mut hand = Hand::reserved(84);
        let frame = hand.current(84);
        hand.arrive(84, Reply::refused(14));
        hand.ticks(before);
        hand.send(frame);
        hand.ticks(3 - before);
        let after_first = u64::from(before == 1);
        let sent = Found { sent_as_replied: [1, 0, 0], sent_as_replied_late: after_first, ..Found::with(Link::ByIdle) };
        let found = Found { beginning: Prompt { current: 1, sent: 1, after_first }, ..sent };
        assert_eq!(hand.check(), if before < 2 { Ok(found) } else { Err(frame) });
        if before >= 2 {
            assert_eq!(hand.words(), format!("its frame is not sent before the second tick after it, {CONFORMED}"));
        }
    }
}

/// A stream conforms up to P in each stretch without a tick, before the first and after the last too, and then all its frames are current.
#[test]
fn conforming_streams() {
    for (permitted, conforms) in [(167, false), (168, true), (169, true)] {
        for ticks in [0, 1, 3] {
            let mut hand = Hand::reserved(permitted);
            hand.ticks(ticks);
            hand.current(84);
            let other = hand.arrive(84, Reply::granted(2, 0));
            assert_eq!(hand.check().err(), conforms.then_some(other));
            hand.events[other].reply = Reply::refused(14);
            hand.events[other].marked = Reply::refused(14);
            assert_eq!(hand.check().err(), conforms.then_some(other));
            if conforms {
                assert_eq!(hand.words(), format!("it replies {}, {CONFORMED}", Reply::refused(14)));
            }
        }
    }
    let mut hand = Hand::reserved(84);
    hand.current(84);
    hand.tick();
    let other = hand.arrive(84, Reply::granted(2, 0));
    assert_eq!(hand.check(), Err(other));
}

/// Arrivals before the grant, or of a charge outside its range, are no offers, and neither are other streams'.
#[test]
fn offers() {
    let mut hand = Hand::opened();
    hand.arrive(84, Reply::refused(12));
    hand.put(Call::Reserve { stream: STREAM, permitted: 84 }, Reply::granted(516, 0));
    hand.arrive(83, Reply::refused(13));
    hand.arrive(2_021, Reply::refused(13));
    hand.put(Call::Arrive { stream: 6, charge: 84, tag: 7 }, Reply::refused(12));
    hand.current(84);
    assert_eq!(hand.check(), Ok(Found { conforming: current(1), ..Found::with(Link::NothingToMeet) }));
    hand.put(Call::Reserve { stream: STREAM, permitted: 300 }, Reply::refused(6));
    assert_eq!(hand.check(), Ok(Found { conforming: current(1), ..Found::with(Link::NothingToMeet) }));
}

/// An arrival of every charge up to the largest is an offer, which a stream that offers no more than P has accepted as current.
#[test]
fn offers_of_envelope_frames() {
    for (charge, is_offer) in [(1_542, true), (1_543, true), (2_020, true), (2_021, false)] {
        let mut hand = Hand::opened();
        hand.put(Call::Reserve { stream: STREAM, permitted: 4_000 }, Reply::granted(0, 0));
        let next = hand.arrive(charge, Reply::granted(2, 0));
        assert_eq!(hand.check().err(), is_offer.then_some(next));
    }
}

/// Two lists that are alike give a stream's arrivals the same replies; what is not its own does not count.
#[test]
fn pairs_of_lists() {
    let mut one = Hand::reserved(200);
    one.current(84);
    one.tick();
    one.arrive(300, Reply::refused(14));
    let mut other = Hand::opened();
    other.put(Call::Reserve { stream: 6, permitted: 84 }, Reply::granted(516, 0));
    other.put(Call::Reserve { stream: STREAM, permitted: 200 }, Reply::granted(316, 0));
    other.current(84);
    other.idle();
    other.tick();
    other.arrive(300, Reply::refused(14));
    other.put(Call::BestEffort { charge: 84, tag: 0 }, Reply::granted(84, 0));
    assert_eq!(pairs::check(&one.events, &other.events, STREAM), Ok(Some(Alike { arrivals: 2, frames: 0, withdrawals: 0, counts: 0 })));
    for reply in [Reply::granted(1, 1), Reply::granted(2, 0), Reply::refused(14)] {
        one.events[2].reply = reply;
        assert!(pairs::check(&one.events, &other.events, STREAM).is_err());
        assert_eq!(pairs::check(&one.events, &other.events, 7), Ok(Some(Alike { arrivals: 0, frames: 0, withdrawals: 0, counts: 0 })));
    }
    one.events[1].reply = Reply::refused(8);
    assert_eq!(pairs::check(&one.events, &other.events, STREAM), Ok(None));
    other.tick();
    assert_eq!(pairs::check(&one.events, &other.events, 7), Ok(None));
}
