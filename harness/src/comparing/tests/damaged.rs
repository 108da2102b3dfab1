//! The kind `captures`, damaged ones: octets changed, files cut and extended, and every refusal of a file at every kind of place, alone and in pairs.

use crate::capture::writing;
use crate::comparing::calls::ORDINARY;
use crate::comparing::chains::{capture, shape_in_turn};
use crate::comparing::coverage::{Coverage, Seen};
use crate::comparing::damage::{Damage, Field, FileCheck, FIELDS};
use crate::comparing::profiles::any_profile;
use crate::comparing::random::Random;
use crate::comparing::replayed::refusal_of;
use crate::comparing::test::{Run, Test};
use crate::comparing::tests::captures::test;
use crate::model::capture::{MOST_OCTETS, RECORD_OCTETS};
use crate::model::refusal::{CAPTURE_HEADER, CAPTURE_INDEX, CAPTURE_LENGTH, CAPTURE_RECORD};

/// The tests of this file.
pub const TESTS: [Test; 6] = [
    test("refusals_at_every_place", refusals_at_every_place),
    test("order_of_checks", order_of_checks),
    test("each_octet_changed", each_octet_changed),
    test("cut_at_every_length", cut_at_every_length),
    test("lengths_about_the_greatest", lengths_about_the_greatest),
    test("damaged_anywhere", damaged_anywhere),
];

/// A capture of 16 records: each port's chain, all kinds, records that ports share, and two on no chain.
const CAPTURE: &str = "
first 3 11            # in the middle of port 2's chain
port 0                # record 1
open 2620 1
reserve 5 200
arrive 5 120 7
best effort 84 1
tick
transmit
chain                 # record 7, on no chain
tick
port 1                # record 8
open 2704 16 next 10
chain                 # record 9, on no chain
transmit
port 2                # record 10
reserve 63 84
arrive 63 84 2
best effort 2020 3
tick
transmit
withdraw 63
";

/// What `replay` prints of it.
const OUTPUT: &str = "0 1 1 0 600 0\n0 2 2 0 400 0\n0 3 3 0 1 80\n0 4 4 0 84 0\n0 5 5 0 0 0\n0 6 6 0 5 7\n\
1 1 1 0 684 0\n1 2 2 0 600 0\n1 3 3 0 1 84\n1 4 4 0 2020 0\n1 5 5 0 0 0\n1 6 6 0 63 2\n1 7 7 0 0 0\n\
2 1 2 1 0 0\n2 2 3 1 0 0\n2 3 4 1 0 0\n2 4 5 1 0 0\n2 5 6 1 0 0\n2 6 7 1 0 0\n3 1 3 1 0 0\n3 2 4 1 0 0\n3 3 5 1 0 0\n3 4 6 1 0 0\n3 5 7 1 0 0\n";

/// Its records on no chain.
const UNUSED: [usize; 2] = [7, 9];

/// Its records in the order in which the ports' walks first meet them, each behind the port of that walk; ports 2 and 3 meet none first.
const WALKS: [(usize, &[usize]); 4] = [(0, &[1, 2, 3, 4, 5, 6]), (1, &[8, 10, 11, 12, 13, 14, 15]), (2, &[]), (3, &[])];

/// How many damages of the first of two checks are tried.
const DAMAGES_OF_A_PAIR: usize = 6;

/// The octets of that capture.
fn good_capture() -> Vec<u8> {
    writing::octets(CAPTURE.as_bytes()).expect("the text is good")
}

/// All checks of that capture in their order: the file, then the ports, each "first index tested as a port's walk begins, each chain from its front,
/// 24 before 23 at a record".
fn checks() -> Vec<FileCheck> {
    let walk = |&(port, records): &(usize, &[usize])| {
        let of_records = records.iter().flat_map(|&index| [FileCheck::Record(index), FileCheck::Next(index)]);
        [FileCheck::First(port)].into_iter().chain(of_records).collect::<Vec<_>>()
    };
    [FileCheck::Length, FileCheck::Header].into_iter().chain(WALKS.iter().flat_map(walk)).collect()
}

/// Replays the capture with damages, and fails unless both programs print just this text.
fn replay_with(run: &mut Run, damages: &[&Damage], text: &str) -> Result<(), String> {
    let mut capture = good_capture();
    damages.iter().for_each(|damage| damage.apply(&mut capture));
    run.replay_prints(&capture, text)
}

/// Replays the capture with each damage of a check alone.
fn replay_with_each(run: &mut Run, check: FileCheck, what: &str, text: &str) -> Result<(), String> {
    for damage in check.damages(&good_capture()) {
        run.next_capture(&format!("{check:?}, {what}"));
        replay_with(run, &[&damage], text)?;
    }
    Ok(())
}

/// Each damage alone: it is refused where a chain meets it, and not seen in a record on no chain.
fn refusals_at_every_place(run: &mut Run) -> Result<(), String> {
    run.next_capture("no damage");
    replay_with(run, &[], OUTPUT)?;
    checks().into_iter().try_for_each(|check| replay_with_each(run, check, "to be refused", &check.refused()))?;
    let mut unused = UNUSED.into_iter().flat_map(|index| [FileCheck::Record(index), FileCheck::Next(index)]);
    unused.try_for_each(|check| replay_with_each(run, check, "on no chain", OUTPUT))
}

/// Each two checks that fail in one file: the check that comes first is told.
fn order_of_checks(run: &mut Run) -> Result<(), String> {
    let checks = checks();
    let pairs_of = |(place, &first): (usize, &FileCheck)| checks[place + 1..].iter().map(move |&later| (first, later));
    checks.iter().enumerate().flat_map(pairs_of).try_for_each(|(first, later)| replay_with_both(run, first, later))
}

/// The capture with two checks failing, several damages of each.
fn replay_with_both(run: &mut Run, first: FileCheck, later: FileCheck) -> Result<(), String> {
    let capture = good_capture();
    let [damages, others] = [first, later].map(|check| check.damages(&capture));
    for number in 0..DAMAGES_OF_A_PAIR {
        let mut random = run.next_capture(&format!("{first:?}, then {later:?}"));
        let other = &others[random.below(others.len())];
        replay_with(run, &[other, &damages[number % damages.len()]], &first.refused())?;
    }
    Ok(())
}

/// Every octet of small captures, each changed in one of several ways.
fn each_octet_changed(run: &mut Run) -> Result<(), String> {
    for number in 0..run.scaled(20) {
        let capture = small_capture(run, number)?;
        (0..capture.len()).try_for_each(|at| replay_changed(run, &capture, at))?;
    }
    run.demand(&FIELDS.map(|field| (Seen::Changed(field), 80)))?;
    run.demand(&[CAPTURE_HEADER, CAPTURE_INDEX, CAPTURE_RECORD].map(|refusal| (Seen::Refused(refusal), 100)))
}

/// A capture with the octet at one place changed.
fn replay_changed(run: &mut Run, capture: &[u8], at: usize) -> Result<(), String> {
    let mut random = run.next_capture(&format!("octet {at} changed"));
    let (octet, other) = (capture[at], random.other_octet(capture[at]));
    let mut changed = capture.to_vec();
    changed[at] = random.pick(&[octet.wrapping_add(1), octet.wrapping_sub(1), octet ^ 0x80, other]);
    run.coverage.count(Seen::Changed(Field::at(at)));
    run.replay(&changed).map(|_| ())
}

/// Small captures, cut at every length, and with octets added.
fn cut_at_every_length(run: &mut Run) -> Result<(), String> {
    for number in 0..run.scaled(4) {
        let capture = small_capture(run, number)?;
        (0..capture.len() + 2 * RECORD_OCTETS).try_for_each(|length| replay_cut(run, &capture, length))?;
    }
    run.demand(&[(Seen::Refused(CAPTURE_LENGTH), 200)])
}

/// A capture, cut to a length or filled up to it; where that is no whole number of records, it is refused for it.
fn replay_cut(run: &mut Run, capture: &[u8], length: usize) -> Result<(), String> {
    let mut random = run.next_capture(&format!("length {length}"));
    let mut cut = capture[..length.min(capture.len())].to_vec();
    cut.resize_with(length, || random.octet());
    let text = run.replay(&cut)?;
    let whole = length >= RECORD_OCTETS && length % RECORD_OCTETS == 0;
    match whole || text == FileCheck::Length.refused() {
        true => Ok(()),
        false => Err(format!("{}: both print {text}", run.place)),
    }
}

/// A good capture of few records, of each shape in turn, replayed as it is.
fn small_capture(run: &mut Run, number: usize) -> Result<Vec<u8>, String> {
    let (what, shape) = shape_in_turn(number);
    let mut random = run.next_capture(what);
    let records = random.between(4..=9) as usize;
    let octets = capture(&mut Coverage::default(), &mut random, shape, records, &ORDINARY);
    run.replay(&octets)?;
    Ok(octets)
}

/// Files about the greatest length, and far longer ones.
fn lengths_about_the_greatest(run: &mut Run) -> Result<(), String> {
    let around = [MOST_OCTETS - 17, MOST_OCTETS - 16, MOST_OCTETS - 15, MOST_OCTETS - 1, MOST_OCTETS, MOST_OCTETS + 1];
    let longer = [MOST_OCTETS + 15, MOST_OCTETS + 16, MOST_OCTETS + 17, 2 * MOST_OCTETS, 2 * MOST_OCTETS + 16, 1_000_000];
    for (number, length) in around.into_iter().chain(longer).enumerate() {
        let mut random = run.next_capture(&format!("length {length}"));
        let profile = any_profile(&mut random);
        let (records, (_, shape)) = (length / RECORD_OCTETS - 1, shape_in_turn(number));
        let mut octets = capture(&mut Coverage::default(), &mut random, shape, records, &profile);
        octets.resize(length, 0);
        let text = run.replay(&octets)?;
        let good = length % RECORD_OCTETS == 0 && length <= MOST_OCTETS;
        if good == refusal_of(&text).is_some() || (!good && text != FileCheck::Length.refused()) {
            return Err(format!("{}: both print {}", run.place, text.lines().next().unwrap_or_default()));
        }
    }
    Ok(())
}

/// Captures of any shape and length with up to four octets changed.
fn damaged_anywhere(run: &mut Run) -> Result<(), String> {
    for number in 0..run.scaled(1_200) {
        let (what, shape) = shape_in_turn(number);
        let mut random = run.next_capture(what);
        let (profile, records) = (any_profile(&mut random), random.between(1..=100) as usize);
        let mut octets = capture(&mut Coverage::default(), &mut random, shape, records, &profile);
        (0..random.between(1..=4)).for_each(|_| change_any(&mut run.coverage, &mut random, &mut octets));
        run.replay(&octets)?;
    }
    run.demand(&FIELDS.map(|field| (Seen::Changed(field), 30)))?;
    run.demand(&[CAPTURE_HEADER, CAPTURE_INDEX, CAPTURE_RECORD].map(|refusal| (Seen::Refused(refusal), 100)))
}

/// Changes an octet of a capture, those of the header more often.
fn change_any(coverage: &mut Coverage, random: &mut Random, octets: &mut [u8]) {
    let (header, any) = (random.below(RECORD_OCTETS), random.below(octets.len()));
    let at = random.pick(&[header, any, any, any]);
    octets[at] = random.other_octet(octets[at]);
    coverage.count(Seen::Changed(Field::at(at)));
}
