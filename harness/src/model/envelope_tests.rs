//! The model's own tests of document 02's "Envelope frames": the ranges that it names, at both sides of each end, and frames of more than 1,518 octets
//! in every call that takes one.

use super::fitness::Clause;
use super::frame::FRAME_LENGTHS;
use super::frame_tests::{ADDRESS, CONTROL};
use super::port::{share, CHARGES, GREATEST_SHARE, LINKS};
use super::refusal::{words, CHARGE_OUTSIDE, FRAME_LENGTH, LINK_OUTSIDE, SHARE_EXCEEDED};
use super::tests::{Lent, STREAM};

impl Lent {
    /// An open port whose stream of the tests has a P, in a share that is the greatest.
    fn of_permitted(permitted: u32) -> Lent {
        let mut lent = Lent::zeroed();
        assert_eq!(lent.open(23_524, 1), (0, 21_504, 0));
        assert_eq!(lent.reserve(STREAM, permitted), (0, 21_504 - permitted, 0));
        lent
    }
}

/// A number as the documents write it, with a comma before its last three digits.
fn written(number: u32) -> String {
    match number {
        ..=999 => number.to_string(),
        _ => format!("{},{:03}", number / 1_000, number % 1_000),
    }
}

/// "The largest charge becomes 2,020", "L runs from 2,104 to 23,524", "17 (60 to 1,996)".
#[test]
fn ranges_are_those_of_the_request() {
    assert_eq!(CHARGES, 84..=2_020);
    assert_eq!(LINKS, 2_104..=23_524);
    assert_eq!(FRAME_LENGTHS, 60..=1_996);
    assert_eq!((share(2_104), share(2_620), share(23_524), GREATEST_SHARE), (84, 600, 21_504, 21_504));
}

/// What is said of a refusal names the ends that it is decided by.
#[test]
fn words_name_the_ranges() {
    let said = |refusal| words(refusal).expect("it is a refusal's number");
    let range = |first: u32, last: u32| format!("{} to {}", written(first), written(last));
    assert!(said(LINK_OUTSIDE).ends_with(&range(*LINKS.start(), *LINKS.end())));
    assert!(said(CHARGE_OUTSIDE).ends_with(&range(*CHARGES.start(), *CHARGES.end())));
    assert!(said(FRAME_LENGTH).contains(&range(*FRAME_LENGTHS.start() as u32, *FRAME_LENGTHS.end() as u32)));
    assert!(said(SHARE_EXCEEDED).ends_with(&format!("L less {}", written(*CHARGES.end()))));
}

/// Every L around the ends, also those of the rule with charges to 1,542: 3, or a share that leaves one largest frame free.
#[test]
fn links_at_the_ends() {
    for link in [0, 84, 1_542, 1_625, 1_626, 2_019, 2_020, 2_021, 2_103, 23_525, 23_526, 65_536 + 2_104, u32::MAX] {
        assert_eq!(Lent::zeroed().open(link, 1), (3, 0, 0));
    }
    for (link, share) in [(2_104, 84), (2_105, 85), (2_142, 122), (23_045, 21_025), (23_046, 21_026), (23_047, 21_027), (23_524, 21_504)] {
        assert_eq!(Lent::zeroed().open(link, 16), (0, share, 0));
    }
}

/// The share of L 2,142, which was 600 with charges to 1,542: P of 122 fits, 123 does not.
#[test]
fn the_share_is_l_less_2_020() {
    let mut lent = Lent::zeroed();
    assert_eq!(lent.open(2_142, 1), (0, 122, 0));
    assert_eq!(lent.reserve(STREAM, 123), (8, 0, 0));
    assert_eq!(lent.reserve(STREAM, 122), (0, 0, 0));
    assert_eq!(lent.best_effort(2_020, 1), (0, 2_020, 0));
    assert_eq!(lent.best_effort(84, 2), (16, 0, 0));
}

/// Charges of 1,543 to 2,020 are judged by what is left: they join where P is no smaller, and are 14 where it is.
#[test]
fn arrivals_of_envelope_frames() {
    for charge in [1_541, 1_542, 1_543, 2_019, 2_020] {
        assert_eq!(Lent::of_permitted(charge).arrive(charge, 1), (0, 1, charge));
        assert_eq!(Lent::of_permitted(charge + 1).arrive(charge, 1), (0, 1, 1));
        assert_eq!(Lent::of_permitted(charge - 1).arrive(charge, 1), (14, 0, 0));
        assert_eq!(Lent::of_permitted(4_040).arrive(charge, 1), (0, 1, 4_040 - charge));
    }
    for charge in [0, 83, 2_021, 2_022, 2_024, 65_536 + 2_020, u32::MAX] {
        assert_eq!(Lent::of_permitted(4_040).arrive(charge, 1), (13, 0, 0));
    }
}

/// An envelope frame at each place: an exact fit advances, one that does not fit waits a place, and at last it is discarded.
#[test]
fn envelope_frames_at_each_place() {
    let mut lent = Lent::of_permitted(2_020);
    assert_eq!(lent.arrive(1_900, 1), (0, 1, 120));
    assert_eq!(lent.arrive(2_020, 2), (0, 2, 2_020));
    assert_eq!(lent.arrive(84, 3), (0, 3, 1_936));
    assert_eq!(lent.arrive(1_937, 4), (14, 0, 0));
    assert_eq!(lent.tick(), (0, 0, 0));
    assert_eq!(lent.tick(), (0, 1, 1_900));
    assert_eq!(lent.tick(), (0, 1, 2_020));
    assert_eq!(lent.arrive(2_020, 5), (0, 1, 2_020));
}

/// Best effort takes every charge to 2,020, and W counts it whole.
#[test]
fn best_effort_of_envelope_frames() {
    for charge in [1_541, 1_542, 1_543, 2_019, 2_020] {
        let mut lent = Lent::of_the_cases();
        assert_eq!(lent.best_effort(charge, 1), (0, charge, 0));
        assert_eq!(lent.best_effort(2_421 - charge, 1), (16, 0, 0));
        assert_eq!(lent.best_effort(2_420 - charge, 1), (0, 2_420, 0));
    }
    for charge in [83, 2_021, 2_024, 65_536 + 2_020] {
        assert_eq!(Lent::of_the_cases().best_effort(charge, 1), (13, 0, 0));
    }
}

/// Frames of 1,518 to 1,997 octets: a bound pair arrives at its stream, with P above the charge and below it, and all else is best effort.
#[test]
fn frames_of_envelope_lengths() {
    for (length, charge) in [(1_518, 1_542), (1_519, 1_543), (1_520, 1_544), (1_995, 2_019), (1_996, 2_020)] {
        for (permitted, reply) in [(2_100, (0, 1, 2_100 - charge)), (charge, (0, 1, charge)), (charge - 1, (14, 0, 0))] {
            let mut lent = Lent::of_permitted(permitted);
            lent.bind(STREAM, ADDRESS, 0x123);
            assert_eq!(lent.tagged(CONTROL, length), reply);
        }
        assert_eq!(Lent::of_the_cases().tagged(CONTROL, length), (0, charge, 0));
        assert_eq!(Lent::of_the_cases().frame([0x08, 0x00], CONTROL, length), (0, charge, 0));
    }
    let mut lent = Lent::of_permitted(2_100);
    lent.bind(STREAM, ADDRESS, 0x123);
    for length in [1_997, 1_998, 2_000, 2_020, 65_536 + 1_996] {
        assert_eq!(lent.tagged(CONTROL, length), (17, 0, 0));
        assert_eq!(lent.frame([0x08, 0x00], CONTROL, length), (17, 0, 0));
    }
}

/// 19: a waiting frame's charge, and L on an open port, at both sides of the new ends and of the old ones.
#[test]
fn unfit_at_the_ends() {
    for (charge, broken) in [(84, &[][..]), (83, &[Clause::WaitingCharge]), (1_543, &[]), (2_020, &[]), (2_021, &[Clause::WaitingCharge])] {
        let mut lent = Lent::of_the_cases();
        lent.put_frame(2, 7, 63, charge, 0);
        lent.put(16 + 8, 7);
        lent.put(18 + 8, 1);
        assert_eq!(lent.unfit(), broken);
    }
    let ends =
        [(2_103, &[Clause::Link][..]), (2_104, &[]), (1_626, &[Clause::Link]), (23_047, &[]), (23_524, &[]), (23_525, &[Clause::Link])];
    for (link, broken) in ends {
        let mut lent = Lent::zeroed();
        lent.open(2_620, 1);
        lent.put(6, link);
        assert_eq!(lent.unfit(), broken);
    }
}

/// 19: the sum of P is held against the share of 2,020 less than L.
#[test]
fn unfit_sum_by_the_share() {
    for (link, broken) in [(2_220, &[][..]), (2_219, &[Clause::PermittedSum]), (2_142, &[Clause::PermittedSum])] {
        let mut lent = Lent::of_the_cases();
        lent.put(6, link);
        assert_eq!(lent.unfit(), broken);
    }
}
