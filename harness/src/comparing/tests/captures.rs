//! The kind `captures`, good ones: the stored captures with their outputs, and random ones, the proved program `replay` against the outside program's.

use std::ops::RangeInclusive;

use crate::capture::file::MOST_RECORDS;
use crate::capture::stored::{self, Stored};
use crate::comparing::calls::{Charges, Profile, Weights, NEVER, ORDINARY};
use crate::comparing::chains::{any_shape, capture, shape_in_turn};
use crate::comparing::coverage::{Asked, Seen};
use crate::comparing::profiles::{
    any_profile, full_queues, FEW_STREAMS, FULL_LINK, HARDLY_ANY_TRANSMITS, MANY_STREAMS, WITHDRAWING, WRONG_ARGUMENTS,
};
use crate::comparing::random::Random;
use crate::comparing::replayed::refusal_of;
use crate::comparing::test::{Kind, Run, Test};
use crate::comparing::tests::lists::{at_each_place, never_met_from_opening, OF_PLANNER, OF_SENDER};
use crate::model::capture::RECORD_OCTETS;
use crate::model::refusal::*;

/// The tests of this file.
pub const TESTS: [Test; 16] = [
    test("stored_captures", stored_captures),
    test("reading_reset_to_current", |run| stored_capture(run, "reading_reset_to_current")),
    test("reading_three_epochs", |run| stored_capture(run, "reading_three_epochs")),
    test("reading_left_carried", |run| stored_capture(run, "reading_left_carried")),
    test("reading_earlier_queue", |run| stored_capture(run, "reading_earlier_queue")),
    test("reading_past_last", |run| stored_capture(run, "reading_past_last")),
    test("captures_in_pieces", captures_in_pieces),
    test("captures_of_few_streams", captures_of_few_streams),
    test("captures_of_many_streams", captures_of_many_streams),
    test("captures_of_full_queues", captures_of_full_queues),
    test("captures_with_purges", captures_with_purges),
    test("captures_of_best_effort", captures_of_best_effort),
    test("captures_of_withdrawals", captures_of_withdrawals),
    test("captures_of_wrong_arguments", captures_of_wrong_arguments),
    test("captures_of_any_events", captures_of_any_events),
    test("captures_of_greatest_length", captures_of_greatest_length),
];

/// A test of this kind.
pub const fn test(name: &'static str, body: fn(&mut Run) -> Result<(), String>) -> Test {
    Test { kind: Kind::Captures, name, body }
}

/// Every stored capture, from a pipe and from its file: both programs print the stored output.
fn stored_captures(run: &mut Run) -> Result<(), String> {
    stored::all()?.iter().try_for_each(|stored| replay_stored(run, stored))
}

/// One stored capture.
fn stored_capture(run: &mut Run, name: &str) -> Result<(), String> {
    replay_stored(run, &stored::one(name)?)
}

/// Replays a stored capture, from a pipe and from its file.
fn replay_stored(run: &mut Run, stored: &Stored) -> Result<(), String> {
    run.next_capture(&stored.name);
    run.replay_prints(&stored.octets, &stored.output)?;
    run.replay_file(&stored::path(&stored.name), &stored.output)
}

/// Captures that come in pieces of several sizes, whole records and parts of one.
fn captures_in_pieces(run: &mut Run) -> Result<(), String> {
    [1, 5, 15, 16, 17, 100, 4_096, 65_535].into_iter().try_for_each(|piece| pieces_of(run, piece))
}

/// Captures that come in pieces of one size, most of them in several.
fn pieces_of(run: &mut Run, piece: usize) -> Result<(), String> {
    let records = (4 * piece / RECORD_OCTETS + 8).min(MOST_RECORDS);
    for _ in 0..run.scaled(10) {
        let mut random = run.next_capture(&format!("pieces of {piece}"));
        let (shape, profile) = (any_shape(&mut random), any_profile(&mut random));
        let octets = capture(&mut run.coverage, &mut random, shape, records, &profile);
        run.replay_in_pieces(&octets.chunks(piece).collect::<Vec<_>>())?;
    }
    Ok(())
}

/// Few streams, which arrivals press at every place.
fn captures_of_few_streams(run: &mut Run) -> Result<(), String> {
    play(run, 500, 50..=600, |_| FEW_STREAMS)?;
    run.demand(&at_each_place(Seen::JoinedAt, 5_000))?;
    run.demand(&at_each_place(Seen::ExactFitAt, 1_000))?;
    run.demand(&[(Seen::Refused(DISCARD), 5_000), (Seen::EnvelopeJoined, 1_000)])
}

/// All 64 streams, with reservations up to the share and past it.
fn captures_of_many_streams(run: &mut Run) -> Result<(), String> {
    play(run, 400, 100..=800, |_| MANY_STREAMS)?;
    run.demand(&[(Seen::Refused(SHARE_EXCEEDED), 2_000), (Seen::ShareFilled, 40), (Seen::AllReserved, 30), (Seen::Reserved, 5_000)])
}

/// Queues of 256 frames, each of the least charge.
fn captures_of_full_queues(run: &mut Run) -> Result<(), String> {
    play(run, 150, 800..=3_000, full_queues)?;
    run.demand(&[(Seen::QueueFilled, 50), (Seen::Refused(DISCARD), 500), (Seen::PurgedFrame, 2_000)])
}

/// Hardly any transmits, so that ticks purge.
fn captures_with_purges(run: &mut Run) -> Result<(), String> {
    play(run, 400, 50..=600, |_| HARDLY_ANY_TRANSMITS)?;
    run.demand(&[(Seen::PurgedFrame, 20_000), (Seen::SentFromPrior, 500), (Seen::Ticked, 10_000)])
}

/// Best effort to its limit, below it after a reservation, and to 256 frames.
fn captures_of_best_effort(run: &mut Run) -> Result<(), String> {
    let weights = |transmit| Weights { reserve: 1, arrive: 5, tick: 3, transmit, best_effort: 90, ..NEVER };
    let pressed = |random: &mut Random| Profile { weights: weights(random.pick(&[2, 30])), edges: 2, ..ORDINARY };
    play(run, 250, 50..=600, pressed)?;
    run.demand(&[(Seen::Refused(BEST_EFFORT_EXCEEDED), 2_000), (Seen::LimitBelowWaits, 50), (Seen::BestEffortAtLimit, 500)])?;
    let filled = |random: &mut Random| Profile { links: FULL_LINK..=FULL_LINK, charges: Charges::Least, ..pressed(random) };
    play(run, 150, 600..=1_500, filled)?;
    run.demand(&[(Seen::BestEffortFilled, 100), (Seen::BestEffortWrapped, 1_000), (Seen::SentFromBestEffort, 5_000)])?;
    run.demand(&[(Seen::Refused(BEST_EFFORT_FULL), 2_000), (Seen::BestEffortOneAbove, 200)])
}

/// Streams that are withdrawn, drain and are granted again.
fn captures_of_withdrawals(run: &mut Run) -> Result<(), String> {
    play(run, 400, 50..=600, |_| WITHDRAWING)?;
    run.demand(&[(Seen::Withdrawn, 5_000), (Seen::Freed, 5_000), (Seen::GrantedAgain, 4_000), (Seen::GrantedAgainAtOnce, 500)])?;
    run.demand(&[Asked::Reservation, Asked::Arrival, Asked::Withdrawal].map(|asked| (Seen::RefusedDraining(asked), 500)))
}

/// Every argument outside its range, at its ends and where fewer bits would hide it.
fn captures_of_wrong_arguments(run: &mut Run) -> Result<(), String> {
    play(run, 500, 10..=400, |_| WRONG_ARGUMENTS)?;
    run.demand(&OF_PLANNER.map(|refusal| (Seen::Refused(refusal), 80)))?;
    run.demand(&OF_SENDER.map(|refusal| (Seen::Refused(refusal), 500)))
}

/// Everything, in captures of few records and of many.
fn captures_of_any_events(run: &mut Run) -> Result<(), String> {
    play(run, 600, 1..=12, any_profile)?;
    play(run, 400, 100..=500, any_profile)?;
    run.demand(&[(Seen::SharedRecord, 50_000), (Seen::UnusedRecord, 5_000), (Seen::PortWithoutEvents, 500)])?;
    run.demand(&[(Seen::Ticked, 5_000), (Seen::SentFromPrior, 2_000), (Seen::SentFromCurrent, 1_000), (Seen::SentNothing, 500)])
}

/// Files of 65,536 octets.
fn captures_of_greatest_length(run: &mut Run) -> Result<(), String> {
    let records = MOST_RECORDS as u32;
    play(run, 60, records..=records, any_profile)?;
    run.demand(&[(Seen::SharedRecord, 20_000), (Seen::UnusedRecord, 5_000)])
}

/// Replays so many captures at full size, the shapes in turn, each with any number of records of a range after record 0.
fn play(run: &mut Run, captures: usize, records: RangeInclusive<u32>, profile: impl Fn(&mut Random) -> Profile) -> Result<(), String> {
    for number in 0..run.scaled(captures) {
        let (what, shape) = shape_in_turn(number);
        let mut random = run.next_capture(what);
        let (profile, records) = (profile(&mut random), random.between(records.clone()) as usize);
        let octets = capture(&mut run.coverage, &mut random, shape, records, &profile);
        let text = run.replay(&octets)?;
        if refusal_of(&text).is_some() {
            return Err(format!("{}: a good capture is {text}", run.place));
        }
    }
    never_met_from_opening(run)
}
