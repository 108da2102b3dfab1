//! The checkers' own tests of lists with Withdraws: what is taken and what is free by the replies, and "each frame" from a grant to the withdrawal.

use crate::call::{Call, Reply};
use crate::guarantee::found::{Alike, Found, Link, Numbers};
use crate::guarantee::tests::{current, Hand, STREAM};
use crate::guarantee::{becoming, pairs, taken};

impl Hand {
    /// A Reserve that replies as said.
    fn reserve(&mut self, stream: u8, permitted: u32, reply: Reply) -> usize {
        self.put(Call::Reserve { stream, permitted }, reply)
    }

    /// A Withdraw that replies as said.
    fn withdraw(&mut self, stream: u8, reply: Reply) -> usize {
        self.put(Call::Withdraw { stream }, reply)
    }

    /// A list whose stream is bound, then withdrawn, with so many ticks after that.
    fn withdrawn(ticks: usize) -> Hand {
        let mut hand = Hand::reserved(200);
        hand.bind(STREAM, 9, ZEROS);
        hand.withdraw(STREAM, ZEROS);
        hand.ticks(ticks);
        hand
    }

    /// What is found of numbers, or the number of the call that breaks what is taken.
    fn numbers(&self) -> Result<Numbers, usize> {
        taken::check(&self.events).map_err(|broken| broken.call)
    }

    /// The only refusals of a call after these events with which they keep what is taken, of those up to 25, and 0 with each of these first numbers.
    fn allowed(&self, call: &Call, firsts: &[u32]) -> Vec<(u8, u32)> {
        let replies = (1..=25).map(Reply::refused).chain(firsts.iter().map(|&first| Reply::granted(first, 0)));
        let kept = replies.filter(|&reply| {
            let mut hand = Hand { events: self.events.clone() };
            hand.put(call.clone(), reply);
            hand.numbers().is_ok()
        });
        kept.map(|reply| (reply.refusal, reply.first)).collect()
    }
}

/// A reply of two zeros.
const ZEROS: Reply = Reply::granted(0, 0);

/// While fewer than four ticks have come after a withdrawal, every call that names the stream is 25; then its number is not reserved.
#[test]
fn numbers_drain_until_the_fourth_tick() {
    let arrive = Call::Arrive { stream: STREAM, charge: 84, tag: 7 };
    let bind = Call::Bind { stream: STREAM, address: [8; 6], vid: 1 };
    for ticks in 0..=6 {
        let hand = Hand::withdrawn(ticks);
        let due = if ticks < 4 { 25 } else { 12 };
        for call in [&arrive, &bind, &Call::Withdraw { stream: STREAM }] {
            assert_eq!(hand.allowed(call, &[0, 1]), [(due, 0)]);
        }
        let reserve = |permitted| hand.allowed(&Call::Reserve { stream: STREAM, permitted }, &[0, 200, 400, 516]);
        let of_reserve = |free: (u8, u32)| if ticks < 4 { [(25, 0)] } else { [free] };
        assert_eq!(reserve(83), of_reserve((7, 0)));
        assert_eq!(reserve(84), of_reserve((0, 516)));
        assert_eq!(reserve(600), of_reserve((0, 0)));
        assert_eq!(reserve(601), of_reserve((8, 0)));
    }
}

/// The share of a draining stream is taken until the fourth tick.
#[test]
fn share_is_taken_until_the_fourth_tick() {
    for ticks in 0..=5 {
        let hand = Hand::withdrawn(ticks);
        let reserve = |permitted| hand.allowed(&Call::Reserve { stream: 6, permitted }, &[0, 200]);
        assert_eq!(reserve(400), [(0, if ticks < 4 { 0 } else { 200 })]);
        assert_eq!(reserve(401).contains(&(8, 0)), ticks < 4);
    }
}

/// The pair of a draining stream is taken until the fourth tick, and its frames are the stream's arrivals until then.
#[test]
fn pair_is_taken_until_the_fourth_tick() {
    for ticks in 0..=5 {
        let mut hand = Hand::withdrawn(ticks);
        hand.reserve(6, 84, Reply::granted(if ticks < 4 { 316 } else { 516 }, 0));
        let bind = Call::Bind { stream: 6, address: [9; 6], vid: 1 };
        assert_eq!(hand.allowed(&bind, &[0]), if ticks < 4 { [(9, 0), (10, 0), (11, 0)] } else { [(9, 0), (10, 0), (0, 0)] });
        let frame = hand.frame(9, 60, Reply::granted(84, 0));
        let arrive = Call::Arrive { stream: STREAM, charge: 84, tag: 7 };
        let best_effort = Call::BestEffort { charge: 84, tag: 7 };
        assert_eq!(becoming::counted(&hand.events)[frame], if ticks < 4 { arrive } else { best_effort });
        assert_eq!(hand.numbers().err(), (ticks < 4).then_some(frame));
    }
}

/// 5 is for streams above 63, 6 for taken numbers, 12 for free ones, and 25 for draining ones alone; a reserved stream is withdrawn.
#[test]
fn replies_to_numbers_that_do_not_drain() {
    let hand = Hand::reserved(200);
    let allowed = |call: Call| hand.allowed(&call, &[0, 1]);
    assert_eq!(allowed(Call::Withdraw { stream: 64 }), [(5, 0)]);
    assert_eq!(allowed(Call::Reserve { stream: 255, permitted: 84 }), [(5, 0)]);
    assert_eq!(allowed(Call::Withdraw { stream: STREAM }), [(0, 0)]);
    assert_eq!(allowed(Call::Withdraw { stream: 6 }), [(12, 0)]);
    assert_eq!(allowed(Call::Arrive { stream: 6, charge: 84, tag: 7 }), [(12, 0)]);
    assert_eq!(allowed(Call::Reserve { stream: STREAM, permitted: 84 }), [(6, 0)]);
    let arrive = allowed(Call::Arrive { stream: STREAM, charge: 84, tag: 7 });
    assert!(![5, 12, 25].iter().any(|&refusal| arrive.contains(&(refusal, 0))));
    assert!([(14, 0), (0, 1)].iter().all(|reply| arrive.contains(reply)));
}

/// A number that is granted again drains anew, whatever it did before; refused calls change nothing of it.
#[test]
fn numbers_are_granted_again() {
    let mut hand = Hand::withdrawn(3);
    hand.withdraw(STREAM, Reply::refused(25));
    hand.ticks(1);
    hand.arrive(84, Reply::refused(12));
    hand.reserve(STREAM, 600, ZEROS);
    hand.ticks(5);
    hand.withdraw(STREAM, ZEROS);
    hand.ticks(3);
    hand.arrive(84, Reply::refused(25));
    hand.ticks(1);
    hand.reserve(STREAM, 84, Reply::granted(516, 0));
    assert_eq!(hand.numbers(), Ok(Numbers { withdrawals: 2, refused_draining: 2, refused_free: 1, granted_again: 2 }));
}

/// "each frame" runs "from a grant to the withdrawal": nothing is asked of arrivals after it, and all of those before it.
#[test]
fn each_frame_from_a_grant_to_the_withdrawal() {
    let mut hand = Hand::reserved(168);
    let frame = hand.current(84);
    hand.send(frame);
    hand.withdraw(STREAM, ZEROS);
    hand.arrive(84, Reply::refused(25));
    hand.arrive(168, Reply::refused(25));
    assert_eq!(hand.check(), Ok(Found { withdrawn: current(1), ..Found::with(Link::NothingToMeet) }));
    hand.ticks(4);
    hand.arrive(84, Reply::refused(12));
    hand.reserve(STREAM, 84, Reply::granted(516, 0));
    hand.current(84);
    let found = hand.check().expect("the list keeps the claim");
    assert_eq!((found.withdrawn.current, found.conforming, found.beginning.current), (1, current(1), 0));
    let late = hand.arrive(84, Reply::refused(14));
    let found = hand.check().expect("the list keeps the claim");
    assert_eq!((found.withdrawn.current, found.conforming.current, found.beginning), (1, 0, current(1)));
    hand.events.truncate(late);
    hand.ticks(1);
    let not_current = hand.arrive(84, Reply::granted(2, 0));
    assert_eq!(hand.check().err(), Some(not_current));
}

/// A refused Withdraw ends nothing, and neither does another stream's.
#[test]
fn frames_after_a_refused_withdrawal() {
    for (stream, reply) in [(STREAM, Reply::refused(12)), (STREAM, Reply::refused(25)), (6, ZEROS)] {
        let mut hand = Hand::reserved(168);
        hand.withdraw(stream, reply);
        let discarded = hand.arrive(84, Reply::refused(14));
        assert_eq!(hand.check(), Err(discarded));
    }
}

/// A stream's frames that were accepted before its withdrawal are sent in time, whatever became of the stream.
#[test]
fn frames_of_a_withdrawn_stream_are_sent_in_time() {
    for before in 0..=3 {
        let mut hand = Hand::reserved(84);
        let frame = hand.current(84);
        hand.withdraw(STREAM, ZEROS);
        hand.ticks(before);
        hand.send(frame);
        hand.ticks(3 - before);
        assert_eq!(hand.check().err(), (before >= 2).then_some(frame));
    }
}

/// A stream's own calls are its Withdraws too: lists that differ in one are not alike, and other streams' do not count.
#[test]
fn pairs_of_lists_with_withdrawals() {
    let list = |withdrawn: &[u8], reply: Reply| {
        let mut hand = Hand::reserved(200);
        hand.tick();
        for &stream in withdrawn {
            hand.withdraw(stream, ZEROS);
        }
        hand.arrive(84, reply);
        hand.events
    };
    let (refused, accepted) = (Reply::refused(25), Reply::granted(1, 116));
    let own = list(&[STREAM], refused);
    let alike = |withdrawals| Ok(Some(Alike { arrivals: 1, frames: 0, withdrawals, counts: 0 }));
    assert_eq!(pairs::check(&own, &list(&[6, STREAM], refused), STREAM), alike(1));
    assert_eq!(pairs::check(&list(&[], accepted), &list(&[6], accepted), STREAM), alike(0));
    assert_eq!(pairs::check(&own, &list(&[], accepted), STREAM), Ok(None));
    assert!(pairs::check(&own, &list(&[STREAM], accepted), STREAM).is_err());
}
