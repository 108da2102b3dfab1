//! The checkers' own tests of what lists tell of their streams' counts: which replies are counted, since when, and of which stream; and two lists that
//! are alike in all that a stream's counts depend on.

use crate::call::{Call, Reply};
use crate::guarantee::found::{Alike, Counts};
use crate::guarantee::tests::{Hand, STREAM};
use crate::guarantee::{counts, pairs};

/// A reply of two zeros.
const ZEROS: Reply = Reply::granted(0, 0);
/// The offsets of the chosen stream's counts, and of the choice.
const ACCEPTED: u32 = 16;
const DISCARDED: u32 = 20;
const CHOICE: u32 = 28;

impl Hand {
    /// A question for the counts of a stream, which replies as said.
    fn ask(&mut self, stream: u8, accepted: u32, discarded: u32) -> usize {
        self.put(Call::StreamCounts { stream }, Reply::granted(accepted, discarded))
    }

    /// A read of a register, which replies it.
    fn read(&mut self, offset: u32, register: u32) -> usize {
        self.put(Call::ReadRegister { offset }, Reply::granted(register, 0))
    }

    /// A granted write of the choice.
    fn choose(&mut self, choice: u32) {
        self.put(Call::WriteRegister { offset: CHOICE, value: choice }, ZEROS);
    }

    /// What is found of counts, or the number of the call that breaks the claim.
    fn counts(&self) -> Result<Counts, usize> {
        counts::check(&self.events).map_err(|broken| broken.call)
    }

    /// Whether a question for a stream's counts after these events may be replied so.
    fn may_tell(&self, stream: u8, accepted: u32, discarded: u32) -> bool {
        let mut hand = Hand { events: self.events.clone() };
        hand.ask(stream, accepted, discarded);
        hand.counts().is_ok()
    }

    /// A list whose stream has three arrivals accepted and two discarded.
    fn of_five() -> Hand {
        let mut hand = Hand::reserved(200);
        (0..3).for_each(|_| _ = hand.current(84));
        (0..2).for_each(|_| _ = hand.arrive(84, Reply::refused(14)));
        hand
    }
}

/// A stream's counts are the numbers of its accepted arrivals and of its discards, and no other numbers.
#[test]
fn counts_are_numbers_of_replies() {
    let hand = Hand::of_five();
    for (accepted, discarded) in (0..6).flat_map(|accepted| (0..6).map(move |discarded| (accepted, discarded))) {
        assert_eq!(hand.may_tell(STREAM, accepted, discarded), (accepted, discarded) == (3, 2));
    }
    assert!(hand.may_tell(STREAM - 1, 0, 0) && hand.may_tell(STREAM + 1, 0, 0) && hand.may_tell(63, 0, 0));
    assert!(!hand.may_tell(STREAM - 1, 3, 2) && !hand.may_tell(STREAM + 1, 3, 2) && !hand.may_tell(0, 1, 0));
}

/// Of refusals only 14 is counted, and of what is granted an arrival alone.
#[test]
fn other_replies_are_not_counted() {
    let mut hand = Hand::reserved(200);
    (1..=28).filter(|refusal| *refusal != 14).for_each(|refusal| _ = hand.arrive(84, Reply::refused(refusal)));
    hand.put(Call::BestEffort { charge: 84, tag: 7 }, Reply::granted(84, 0));
    hand.put(Call::Reserve { stream: 6, permitted: 84 }, Reply::granted(316, 0));
    hand.ticks(5);
    assert!((0..64).all(|stream| hand.may_tell(stream, 0, 0) && !hand.may_tell(stream, 1, 0) && !hand.may_tell(stream, 0, 1)));
}

/// "frames bound to it too": a Frame counts for the stream to which its pair is bound, and for none where it is best effort.
#[test]
fn frames_are_counted_for_their_stream() {
    let mut hand = Hand::reserved(200);
    hand.frame(9, 60, Reply::granted(84, 0));
    hand.bind(STREAM, 9, ZEROS);
    hand.frame(9, 60, Reply::granted(1, 116));
    hand.frame(9, 177, Reply::refused(14));
    hand.frame(9, 59, Reply::refused(17));
    hand.frame(8, 60, Reply::granted(168, 0));
    assert!(hand.may_tell(STREAM, 1, 1) && !hand.may_tell(STREAM, 2, 1) && !hand.may_tell(STREAM, 0, 0) && !hand.may_tell(STREAM, 1, 2));
    assert!(hand.may_tell(0, 0, 0) && hand.may_tell(6, 0, 0));
}

/// "since the latest opening or granted withdrawal": a granted withdrawal of the stream begins anew, a refused one and another stream's do not.
#[test]
fn counts_begin_anew_at_a_granted_withdrawal() {
    let withdrawn = |stream: u8, reply: Reply| {
        let mut hand = Hand::of_five();
        hand.put(Call::Withdraw { stream }, reply);
        hand
    };
    let mut hand = withdrawn(STREAM, ZEROS);
    assert!(hand.may_tell(STREAM, 0, 0) && !hand.may_tell(STREAM, 3, 2) && !hand.may_tell(STREAM, 0, 2) && !hand.may_tell(STREAM, 3, 0));
    hand.ticks(4);
    hand.put(Call::Reserve { stream: STREAM, permitted: 84 }, Reply::granted(516, 0));
    assert!(hand.may_tell(STREAM, 0, 0) && !hand.may_tell(STREAM, 3, 2));
    hand.current(84);
    hand.ask(STREAM, 1, 0);
    assert_eq!(hand.counts(), Ok(Counts { asked: 1, anew: 1, ..Counts::default() }));
    for hand in [withdrawn(STREAM, Reply::refused(12)), withdrawn(STREAM, Reply::refused(25)), withdrawn(6, ZEROS), withdrawn(4, ZEROS)] {
        assert!(hand.may_tell(STREAM, 3, 2) && !hand.may_tell(STREAM, 0, 0));
    }
}

/// Ticks, by name or by control, change no count, and neither does the end of a drain.
#[test]
fn ticks_change_no_count() {
    let mut hand = Hand::of_five();
    for _ in 0..6 {
        hand.tick();
        hand.put(Call::WriteRegister { offset: 0, value: 1 }, ZEROS);
        assert!(hand.may_tell(STREAM, 3, 2) && !hand.may_tell(STREAM, 0, 0));
    }
}

/// "Offsets 16 and 20 show the counts of the stream chosen", stream 0 at first; "a number above 63 there makes both read zero", and reads back as
/// written.
#[test]
fn reads_show_the_chosen_stream() {
    let shows = |choices: &[u32], offset: u32, register: u32| {
        let mut hand = Hand::of_five();
        choices.iter().for_each(|&choice| hand.choose(choice));
        hand.read(offset, register);
        hand.counts().is_ok()
    };
    for (choices, counts) in [(&[][..], [0, 0]), (&[5], [3, 2]), (&[64], [0, 0]), (&[5, 4], [0, 0]), (&[u32::MAX, 5], [3, 2])] {
        for register in 0..5 {
            assert_eq!(shows(choices, ACCEPTED, register), register == counts[0], "{choices:?}");
            assert_eq!(shows(choices, DISCARDED, register), register == counts[1], "{choices:?}");
        }
    }
    for choice in [5, 63, 64, 64 + 5, 256 + 5, u32::MAX] {
        assert!(shows(&[choice], CHOICE, choice) && !shows(&[choice], CHOICE, choice ^ 1) && !shows(&[choice], CHOICE, 0));
        assert!(shows(&[choice], ACCEPTED, if choice == 5 { 3 } else { 0 }));
    }
    assert!(shows(&[], CHOICE, 0) && !shows(&[], CHOICE, 5));
}

/// A write of another register chooses nothing, and a refused one neither.
#[test]
fn other_writes_choose_nothing() {
    let mut hand = Hand::of_five();
    hand.put(Call::WriteRegister { offset: CHOICE, value: 5 }, Reply::refused(26));
    hand.put(Call::WriteRegister { offset: 24, value: 5 }, ZEROS);
    hand.read(ACCEPTED, 0);
    assert!(hand.counts().is_ok());
}

/// A question for the counts of a stream above 63 is 5, and nothing else is.
#[test]
fn questions_of_no_stream() {
    for (stream, refusal) in [(63, 0), (64, 5), (255, 5), (STREAM, 5), (64, 0), (64, 19)] {
        let mut hand = Hand::opened();
        let number = hand.put(Call::StreamCounts { stream }, Reply::refused(refusal));
        let is_due = (refusal == 5) == (stream > 63) && refusal != 19;
        assert_eq!(hand.counts().err(), (!is_due).then_some(number));
    }
}

/// What is found: questions and reads of streams with replies to count, those of no stream, and those that tell discards.
#[test]
fn what_is_found_of_counts() {
    let mut hand = Hand::of_five();
    hand.ask(STREAM, 3, 2);
    hand.ask(6, 0, 0);
    hand.read(ACCEPTED, 0);
    hand.choose(STREAM.into());
    hand.read(ACCEPTED, 3);
    hand.read(DISCARDED, 2);
    hand.choose(64);
    hand.read(ACCEPTED, 0);
    hand.put(Call::StreamCounts { stream: 64 }, Reply::refused(5));
    assert_eq!(hand.counts(), Ok(Counts { asked: 1, shown: 2, above: 2, discards: 3, anew: 0 }));
    let words = |hand: &Hand| counts::check(&hand.events).expect_err("the list breaks the claim").words;
    let number = hand.ask(STREAM, 4, 2);
    assert_eq!((hand.counts(), words(&hand)), (Err(number), String::from("it replies 0 4 2, and by the replies counted 0 3 2")));
}

/// Two lists that are alike tell the same counts at the same place, by a question or by a read, and may tell others elsewhere.
#[test]
fn alike_lists_tell_the_same_counts() {
    let list = |by_read: bool, accepted: [u32; 2]| {
        let mut hand = Hand::reserved(200);
        let tell = |hand: &mut Hand, accepted: u32| match by_read {
            true => {
                hand.choose(STREAM.into());
                hand.read(ACCEPTED, accepted);
            }
            false => _ = hand.ask(STREAM, accepted, 0),
        };
        hand.current(84);
        tell(&mut hand, accepted[0]);
        hand.current(84);
        tell(&mut hand, accepted[1]);
        hand.events
    };
    let alike = |counts| Ok(Some(Alike { arrivals: 2, frames: 0, withdrawals: 0, counts }));
    let one = list(false, [1, 2]);
    assert_eq!(pairs::check(&one, &list(false, [1, 2]), STREAM), alike(2));
    assert_eq!(pairs::check(&one, &list(true, [1, 2]), STREAM), alike(2));
    assert_eq!(pairs::check(&list(true, [1, 2]), &one, STREAM), alike(2));
    let apart = "stream 5: call 5 tells Accepted 2, call 5 of the other list 3";
    assert_eq!(pairs::check(&one, &list(false, [1, 3]), STREAM), Err(apart.into()));
    assert!(pairs::check(&one, &list(true, [2, 2]), STREAM).is_err());
    assert!(pairs::check(&list(true, [1, 1]), &one, STREAM).is_err());
}

/// Discards are compared too; counts of another stream, of a choice above 63, or of lists that are not alike are not.
#[test]
fn counts_that_are_compared() {
    let list = |tells: &dyn Fn(&mut Hand)| {
        let mut hand = Hand::reserved(200);
        hand.arrive(201, Reply::refused(14));
        tells(&mut hand);
        hand.events
    };
    let one = list(&|hand| _ = hand.ask(STREAM, 0, 1));
    let alike = |counts| Ok(Some(Alike { arrivals: 1, frames: 0, withdrawals: 0, counts }));
    assert_eq!(pairs::check(&one, &one, STREAM), alike(1));
    assert!(pairs::check(&one, &list(&|hand| _ = hand.ask(STREAM, 0, 2)), STREAM).is_err());
    assert_eq!(pairs::check(&one, &list(&|hand| _ = hand.ask(6, 0, 2)), STREAM), alike(0));
    let read_of = |choice: u32| {
        list(&|hand| {
            hand.choose(choice);
            hand.read(DISCARDED, 2);
        })
    };
    assert!(pairs::check(&one, &read_of(STREAM.into()), STREAM).is_err());
    assert_eq!(pairs::check(&one, &read_of(64 + 5), STREAM), alike(0));
    let later = list(&|hand| {
        hand.tick();
        hand.ask(STREAM, 0, 9);
    });
    assert_eq!(pairs::check(&one, &later, STREAM), Ok(None));
    let mut before = one.clone();
    before.insert(1, before[3].clone());
    assert_eq!(pairs::check(&one, &before, STREAM), alike(1));
}
