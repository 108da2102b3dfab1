//! The checkers' own tests of lists with accesses to registers: a control write of one bit counts as the Tick or the Transmit that it makes, one of
//! both bits is in no list, and all other accesses count as nothing but themselves.

use crate::call::{Call, Reply};
use crate::guarantee::becoming::{by_control, counted, made, one_by_one};
use crate::guarantee::found::{Alike, Found};
use crate::guarantee::tests::{Hand, STREAM};
use crate::guarantee::{pairs, taken};

/// A write of a register.
const fn write(offset: u32, value: u32) -> Call {
    Call::WriteRegister { offset, value }
}

impl Hand {
    /// The list with a control write in the place of each Tick and each Transmit.
    fn controlled(&self, above: u32) -> Hand {
        let mut hand = Hand { events: self.events.clone() };
        hand.events.iter_mut().for_each(|event| event.call = by_control(event.call.clone(), above));
        hand
    }

    /// A list in which frames are sent late and soon, and a tick purges nothing.
    fn served() -> Hand {
        let mut hand = Hand::reserved(600);
        let frames = [hand.current(300), hand.current(300)];
        hand.tick();
        frames.into_iter().for_each(|frame| hand.send(frame));
        hand.tick();
        let frame = hand.current(84);
        hand.send(frame);
        hand.ticks(3);
        hand
    }
}

#[test]
fn control_writes_count_as_what_they_make() {
    for above in [0, 4, 0xffff_ffff] {
        let hand = Hand::served();
        let (found, controlled) = (hand.check().expect("the list keeps the demand"), hand.controlled(above));
        assert_eq!(found.control_ticks + found.control_transmits, 0);
        assert_eq!(controlled.check(), Ok(Found { control_ticks: 5, control_transmits: 6, ..found }));
        assert_eq!(counted(&controlled.events), counted(&hand.events));
    }
}

#[test]
fn a_control_write_of_both_bits_is_in_no_list() {
    let mut hand = Hand::served();
    let number = hand.put(write(0, 3), Reply::granted(254, 0));
    assert_eq!(hand.check(), Err(number));
    assert_eq!(one_by_one(write(0, 0x8000_0003)), [write(0, 0x8000_0001), write(0, 0x8000_0002)]);
    for call in [write(0, 0), write(0, 1), write(0, 2), write(0, 4), write(12, 3), Call::Tick, Call::ReadRegister { offset: 0 }] {
        assert_eq!(one_by_one(call.clone()), [call]);
    }
}

#[test]
fn other_accesses_count_as_themselves() {
    for call in [write(0, 0), write(0, 0xffff_fffc), write(12, 1), write(8, 2), write(4, 1), Call::ReadRegister { offset: 0 }] {
        assert_eq!(made(&call), call);
        let mut hand = Hand::served();
        let found = hand.check();
        hand.put(call, Reply::granted(0, 0));
        assert_eq!(hand.check(), found);
    }
    assert_eq!([made(&write(0, 5)), made(&write(0, 6))], [Call::Tick, Call::Transmit]);
}

#[test]
fn ticks_by_control_are_ticks_in_every_claim() {
    let mut purging = Hand::reserved(600);
    purging.current(300);
    purging.ticks(1);
    purging.put(write(0, 2), Reply::granted(254, 0));
    let number = purging.put(write(0, 1), Reply::granted(1, 300));
    assert_eq!(purging.check(), Err(number));
    let mut late = Hand::reserved(600);
    late.current(300);
    for _ in 0..4 {
        late.put(write(0, 2), Reply::granted(254, 0));
        late.put(write(0, 1), Reply::granted(0, 0));
    }
    assert_eq!(late.check(), Err(2));
}

#[test]
fn lists_by_name_and_by_control_are_alike() {
    let hand = Hand::served();
    let alike = Ok(Some(Alike { arrivals: 3, frames: 0, withdrawals: 0, counts: 0 }));
    assert_eq!(pairs::check(&hand.events, &hand.controlled(8).events, STREAM), alike);
    assert_eq!(pairs::check(&hand.controlled(4).events, &hand.events, STREAM), alike);
    let mut longer = hand.controlled(0);
    longer.put(write(0, 1), Reply::granted(0, 0));
    assert_eq!(pairs::check(&hand.events, &longer.events, STREAM), Ok(None));
}

#[test]
fn ticks_by_control_free_a_withdrawn_stream() {
    for ticks in 0..=5 {
        let mut hand = Hand::reserved(200);
        hand.put(Call::Withdraw { stream: STREAM }, Reply::granted(0, 0));
        (0..ticks).for_each(|_| _ = hand.put(write(0, 1), Reply::granted(0, 0)));
        let refusal = if ticks < 4 { 25 } else { 12 };
        hand.put(Call::Withdraw { stream: STREAM }, Reply::refused(refusal));
        assert!(taken::check(&hand.events).is_ok(), "{ticks}");
    }
}
