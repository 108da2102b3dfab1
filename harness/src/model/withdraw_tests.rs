//! The model's own tests of Withdraw: the sentences of document 02's request, what each call writes of a draining stream, and the refusals in their
//! order.

use super::fitness::Clause;
use super::replay::replay;
use super::tests::{Lent, COUNTS, ENTRY, STREAM};
use crate::call::Call;

/// A destination, and octets 12 to 15 of a frame with VID 7.
const ADDRESS: [u8; 6] = [1, 2, 3, 4, 5, 6];
const TAGGED: [u8; 4] = [0x81, 0x00, 0x00, 0x07];
/// Where the draining count of the stream of the tests stands in the record.
const DRAINING: usize = ENTRY + 6;

impl Lent {
    /// Plays a Withdraw.
    pub fn withdraw(&mut self, stream: u8) -> (u8, u32, u32) {
        self.play(Call::Withdraw { stream })
    }

    /// Plays a Bind to the address and VID 7.
    fn bind_pair(&mut self, stream: u8) -> (u8, u32, u32) {
        self.play(Call::Bind { stream, address: ADDRESS, vid: 7 })
    }

    /// Plays a Frame of 60 octets to the address with VID 7.
    fn frame_of_pair(&mut self) -> (u8, u32, u32) {
        let mut octets = [&ADDRESS[..], &[0; 6], &TAGGED].concat();
        octets.resize(60, 0);
        self.play(Call::Frame { octets: octets.into(), tag: 3 })
    }

    /// Plays so many Ticks, which purge nothing.
    pub fn ticks(&mut self, count: usize) {
        for _ in 0..count {
            assert_eq!(self.tick(), (0, 0, 0));
        }
    }
}

/// "A withdrawal replies two zeros", and writes the draining count of its stream, whatever else its entry holds, and zeros to the stream's counts.
#[test]
fn withdraw_writes_what_its_rule_names() {
    let mut lent = Lent::of_the_cases();
    lent.bind_pair(STREAM);
    lent.arrive(120, 1);
    let mut after = lent.clone();
    assert_eq!(lent.withdraw(STREAM), (0, 0, 0));
    after.record[DRAINING] = 4;
    after.record[COUNTS..COUNTS + 8].fill(0);
    assert_eq!(lent, after);
    assert_eq!(lent.unfit(), []);
}

/// "A withdrawn stream stops taking frames, while its frames already queued stay queued", and are sent.
#[test]
fn queued_frames_stay_and_are_sent() {
    let mut lent = Lent::of_the_cases();
    for tag in 1..=3 {
        assert_eq!(lent.arrive(200, tag).0, 0);
    }
    assert_eq!(lent.withdraw(STREAM), (0, 0, 0));
    assert_eq!(lent.arrive(84, 4), (25, 0, 0));
    for tag in 1..=3 {
        assert_eq!(lent.transmit(), (0, 5, tag));
        assert_eq!(lent.transmit(), (0, 254, 0));
        assert_eq!(lent.tick(), (0, 0, 0));
        assert_eq!(lent.arrive(84, 4), (25, 0, 0));
    }
}

/// "It drains until the fourth tick after the withdrawal": at three ticks 25, at the fourth number and share are free.
#[test]
fn number_and_share_are_free_at_the_fourth_tick() {
    let mut lent = Lent::of_the_cases();
    assert_eq!(lent.withdraw(STREAM), (0, 0, 0));
    for count in [4, 3, 2, 1] {
        assert_eq!(lent.record[DRAINING], count);
        assert_eq!(lent.reserve(STREAM, 200), (25, 0, 0));
        assert_eq!(lent.withdraw(STREAM), (25, 0, 0));
        assert_eq!(lent.reserve(6, 401), (8, 0, 0));
        lent.ticks(1);
    }
    assert_eq!(lent.record[DRAINING], 0);
    assert_eq!(lent.arrive(84, 1), (12, 0, 0));
    assert_eq!(lent.withdraw(STREAM), (12, 0, 0));
    assert_eq!(lent.clone().reserve(6, 600), (0, 0, 0));
    assert_eq!(lent.reserve(STREAM, 600), (0, 0, 0));
    assert_eq!(lent.arrive(84, 1), (0, 1, 516));
}

/// "it still counts as reserved, with its P in R and the share": the limit of best effort rises at the fourth tick.
#[test]
fn draining_octets_are_in_r() {
    let mut lent = Lent::of_the_cases();
    lent.withdraw(STREAM);
    assert_eq!(lent.best_effort(2_020, 1), (0, 2_020, 0));
    for _ in 0..4 {
        assert_eq!(lent.best_effort(401, 2), (16, 0, 0));
        assert_eq!(lent.reserve(6, 401), (8, 0, 0));
        lent.ticks(1);
    }
    assert_eq!(lent.best_effort(600, 2), (0, 2_620, 0));
    let mut lent = Lent::of_the_cases();
    lent.withdraw(STREAM);
    assert_eq!(lent.reserve(6, 100), (0, 300, 0));
    lent.ticks(4);
    assert_eq!(lent.reserve(7, 100), (0, 400, 0));
}

/// A Frame to the pair of a draining stream is 25, and the pair is 11 for others; with the fourth tick "its binding is gone".
#[test]
fn the_binding_stands_until_the_fourth_tick() {
    let mut lent = Lent::of_the_cases();
    assert_eq!(lent.reserve(6, 200), (0, 200, 0));
    assert_eq!(lent.bind_pair(STREAM), (0, 0, 0));
    lent.withdraw(STREAM);
    for _ in 0..4 {
        assert_eq!(lent.frame_of_pair(), (25, 0, 0));
        assert_eq!(lent.bind_pair(6), (11, 0, 0));
        assert_eq!(lent.bind_pair(STREAM), (25, 0, 0));
        lent.ticks(1);
    }
    assert_eq!(lent.clone().frame_of_pair(), (0, 84, 0));
    assert_eq!(lent.bind_pair(6), (0, 0, 0));
    assert_eq!(lent.frame_of_pair(), (0, 1, 116));
    assert_eq!(lent.reserve(STREAM, 200), (0, 200, 0));
    assert_eq!(lent.bind_pair(STREAM), (11, 0, 0));
}

/// "Ticks move a draining stream's place and left as before", and "a freed stream's entry keeps place and left as that tick moved them".
#[test]
fn ticks_move_a_draining_stream() {
    let mut lent = Lent::of_the_cases();
    lent.bind_pair(STREAM);
    lent.withdraw(STREAM);
    lent.put_place(3, 7);
    for place in [(2, 7), (1, 7), (1, 200)] {
        lent.ticks(1);
        assert_eq!(lent.place(), place);
    }
    lent.put_place(3, 9);
    let mut after = lent.clone();
    lent.ticks(1);
    after.record[1] = 0;
    after.put_place(2, 9);
    after.record[ENTRY] = 0;
    after.record[DRAINING..DRAINING + 2].fill(0);
    assert_eq!(lent, after);
    assert_eq!(lent.unfit(), []);
}

/// Two streams that are withdrawn in different epochs drain each by itself.
#[test]
fn streams_drain_each_by_itself() {
    let mut lent = Lent::of_the_cases();
    lent.reserve(63, 100);
    lent.withdraw(63);
    lent.ticks(2);
    lent.withdraw(STREAM);
    lent.ticks(2);
    assert_eq!(lent.reserve(63, 500), (8, 0, 0));
    assert_eq!(lent.reserve(63, 400), (0, 0, 0));
    lent.ticks(1);
    assert_eq!(lent.reserve(STREAM, 84), (25, 0, 0));
    lent.ticks(1);
    assert_eq!(lent.reserve(STREAM, 200), (0, 0, 0));
}

/// 25 is "checked right after 5": before 6, 7 and 8, before 13, before 9, 10 and 11; and after 1 and 5.
#[test]
fn draining_is_asked_right_after_5() {
    let mut lent = Lent::of_the_cases();
    lent.reserve(6, 200);
    lent.bind_pair(STREAM);
    lent.withdraw(STREAM);
    let before = lent.clone();
    for permitted in [0, 83, 84, 200, 401, u32::MAX] {
        assert_eq!(lent.reserve(STREAM, permitted), (25, 0, 0));
    }
    for charge in [0, 83, 84, 201, 2_021, u32::MAX] {
        assert_eq!(lent.arrive(charge, 1), (25, 0, 0));
    }
    for vid in [0, 7, 8, 4_095] {
        assert_eq!(lent.play(Call::Bind { stream: STREAM, address: ADDRESS, vid }), (25, 0, 0));
    }
    assert_eq!([lent.withdraw(64), lent.withdraw(255)], [(5, 0, 0); 2]);
    assert_eq!(lent.withdraw(7), (12, 0, 0));
    assert_eq!(lent, before);
    lent.record[0] = 0;
    assert_eq!([lent.withdraw(STREAM), lent.withdraw(64), lent.withdraw(7)], [(1, 0, 0); 3]);
    assert_eq!(lent.reserve(STREAM, 0), (1, 0, 0));
}

/// The count of an unreserved stream means nothing: it is not tested, no tick counts it, and Reserve clears it.
#[test]
fn the_count_of_an_unreserved_stream_means_nothing() {
    for (mark, count) in [(0, 1), (0, 4), (2, 5), (0, 255)] {
        let mut lent = Lent::of_the_cases();
        lent.record[ENTRY] = mark;
        lent.record[DRAINING] = count;
        assert_eq!(lent.unfit(), []);
        let mut after = lent.clone();
        lent.ticks(1);
        after.record[1] = 1;
        assert_eq!(lent, after);
        assert_eq!(lent.arrive(84, 1), (12, 0, 0));
        assert_eq!(lent.withdraw(STREAM), (12, 0, 0));
        assert_eq!(lent.reserve(STREAM, 200), (0, 400, 0));
        assert_eq!(lent.record[DRAINING], 0);
        assert_eq!(lent.arrive(84, 1), (0, 1, 116));
    }
}

/// "19 covers a draining count outside 1 to 4", of a reserved stream, on closed ports too; 0 is a stream that does not drain.
#[test]
fn unfit_draining_counts() {
    for (count, broken) in [(0, &[][..]), (1, &[]), (4, &[]), (5, &[Clause::Draining]), (255, &[Clause::Draining])] {
        let mut lent = Lent::of_the_cases();
        lent.record[DRAINING] = count;
        assert_eq!(lent.unfit(), broken);
        lent.record[0] = 0;
        assert_eq!(lent.unfit(), broken);
        assert_eq!(lent.open(2_620, 1).0, if broken.is_empty() { 0 } else { 19 });
    }
}

/// "Open ends all draining, as it drops reservations."
#[test]
fn open_ends_all_draining() {
    let mut lent = Lent::of_the_cases();
    lent.withdraw(STREAM);
    lent.record[0] = 0;
    assert_eq!(lent.open(2_620, 1), (0, 600, 0));
    assert_eq!(lent.record[DRAINING], 0);
    assert_eq!(lent.reserve(STREAM, 600), (0, 0, 0));
    assert_eq!(lent.arrive(84, 1), (0, 1, 516));
}

/// A capture of one port with these records in a chain, each as kind, stream, A and B.
fn capture(records: &[(u8, u8, u32, u32)]) -> Vec<u8> {
    let mut octets = b"EPCH\x00\x01\x00\x00\x00\x00\x00\x00\x00\x00\x00\x00".to_vec();
    for (before, (kind, stream, a, b)) in records.iter().enumerate() {
        let next = if before + 1 == records.len() { 0 } else { before as u16 + 2 };
        octets.extend([*kind, *stream]);
        octets.extend(next.to_be_bytes());
        octets.extend([a.to_be_bytes(), b.to_be_bytes(), [0; 4]].concat());
    }
    octets
}

/// "in captures it is kind 7, with any stream octet and A and B 0".
#[test]
fn withdrawals_in_captures() {
    let opened = [(1, 0, 2_620, 1), (2, 5, 200, 0)];
    let withdrawn = [(7, 5, 0, 0), (7, 5, 0, 0), (7, 6, 0, 0), (7, 64, 0, 0), (7, 255, 0, 0)];
    let replayed = replay(&capture(&[&opened[..], &withdrawn].concat()));
    assert_eq!(replayed, "0 1 1 0 600 0\n0 2 2 0 400 0\n0 3 7 0 0 0\n0 4 7 25 0 0\n0 5 7 12 0 0\n0 6 7 5 0 0\n0 7 7 5 0 0\n");
    assert_eq!(replay(&capture(&[(7, 0, 0, 0)])), "0 1 7 1 0 0\n");
    for record in [(7, 5, 1, 0), (7, 5, 0, 1), (7, 5, 1 << 31, 0), (8, 5, 0, 0)] {
        assert_eq!(replay(&capture(&[record])), "refused 24 1\n");
    }
}
