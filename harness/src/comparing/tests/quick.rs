//! The kind `quick`: the proved quick calls, on fit records against the proved calls and on all records against their own definition.

use crate::comparing::broken;
use crate::comparing::compared::Compared;
use crate::comparing::counts::Counting;
use crate::comparing::coverage::Seen;
use crate::comparing::profiles::{any_profile, few_ticks};
use crate::comparing::registers::EVERY_COUNT;
use crate::comparing::shapes::{any_fit, any_open, bindings_of_every_sort, extreme, SHAPES};
use crate::comparing::sides::Side;
use crate::comparing::test::{Kind, Run, Test};
use crate::comparing::tests::counts::OF_COUNTS;
use crate::comparing::tests::each_call::{try_each_call, try_lengths, try_shape};
use crate::comparing::tests::lists::{an_open_port, any_port, play, Plan};
use crate::comparing::tests::register_lists::demand_registers;
use crate::comparing::tests::registers::OF_ACCESSES;
use crate::comparing::tests::withdrawals::OF_DRAINING;
use crate::model::refusal::*;

/// The tests of this kind, but for those between fences.
pub const TESTS: [Test; 6] = [
    test("quick_as_the_call_on_fit_records", as_the_call_on_fit_records),
    test("quick_as_the_call_in_lists", as_the_call_in_lists),
    test("quick_as_defined_on_every_shape", as_defined_on_every_shape),
    test("quick_as_defined_in_lists", as_defined_in_lists),
    test("quick_as_defined_on_broken_clauses", as_defined_on_broken_clauses),
    test("quick_as_defined_at_all_lengths", as_defined_at_all_lengths),
];

/// The quick calls and the calls.
const WITH_CALLS: [Side; 2] = [Side::Quick, Side::Exports];
/// The quick calls and their definition.
const WITH_DEFINITION: [Side; 2] = [Side::Quick, Side::InPlace];

/// A test of this kind.
const fn test(name: &'static str, body: fn(&mut Run) -> Result<(), String>) -> Test {
    Test { kind: Kind::Quick, name, body }
}

/// On fit records the quick calls are the calls.
fn as_the_call_on_fit_records(run: &mut Run) -> Result<(), String> {
    try_shape(run, WITH_CALLS, ("fit", any_fit), 20_000)?;
    run.demand_none(Seen::UnfitRecord)?;
    run.demand(&[(Seen::EnvelopeWaits, 3_000), (Seen::EnvelopeJoined, 500), (Seen::EnvelopeBestEffort, 500)])?;
    run.demand(&[DISCARD, QUEUE_FULL, SHARE_EXCEEDED, PORT_CLOSED].map(|refusal| (Seen::Refused(refusal), 1_000)))?;
    run.demand(&[BEST_EFFORT_FULL, BEST_EFFORT_EXCEEDED].map(|refusal| (Seen::Refused(refusal), 1_000)))?;
    run.demand(&[(Seen::BestEffort, 5_000), (Seen::BestEffortAtLimit, 200)])?;
    run.demand(&[VID_OUTSIDE, BOUND_ALREADY, PAIR_BOUND_ALREADY].map(|refusal| (Seen::Refused(refusal), 300)))?;
    run.demand(
        &[DISCARD, BEST_EFFORT_FULL, BEST_EFFORT_EXCEEDED, FRAME_LENGTH, QUEUE_FULL].map(|refusal| (Seen::FrameRefused(refusal), 300)),
    )?;
    run.demand(&[(Seen::Bound, 3_000), (Seen::FrameArrived, 3_000), (Seen::FrameBestEffort, 5_000)])?;
    run.demand(&[(Seen::Withdrawn, 10_000), (Seen::Freed, 4_000), (Seen::FrameRefused(DRAINING), 500)])?;
    run.demand(&OF_DRAINING.map(|seen| (seen, 300)))?;
    run.demand(&EVERY_COUNT.map(|count| (Seen::CountWrapped(count), 1_000)))?;
    run.demand(&OF_COUNTS.map(|counting| (Seen::Counting(counting), 300)))?;
    run.demand(&[Counting::Zeroed, Counting::KeptWhenRefused, Counting::KeptWhenFreed].map(|kept| (Seen::Counting(kept), 1_000)))?;
    demand_registers(run, 1_000)
}

/// In lists from fit records the quick calls are the calls.
fn as_the_call_in_lists(run: &mut Run) -> Result<(), String> {
    play(run, WITH_CALLS, &Plan { lists: 1_000, calls: 500, begin: any_port }, any_profile)?;
    play(run, WITH_CALLS, &Plan { lists: 500, calls: 300, begin: an_open_port }, few_ticks)?;
    run.demand(&[(Seen::PurgedFrame, 10_000), (Seen::SentFromBestEffort, 500)])?;
    run.demand(&[(Seen::JoinedWrapped, 800), (Seen::Refused(QUEUE_FULL), 1_500)])?;
    run.demand(&[(Seen::BestEffort, 10_000), (Seen::BestEffortWrapped, 500), (Seen::Refused(BEST_EFFORT_EXCEEDED), 5_000)])?;
    run.demand(&[(Seen::Bound, 3_000), (Seen::FrameArrived, 8_000), (Seen::FrameBestEffort, 10_000)])?;
    run.demand(&[(Seen::Withdrawn, 3_000), (Seen::Freed, 3_000), (Seen::GrantedAgain, 500), (Seen::Refused(DRAINING), 5_000)])?;
    demand_registers(run, 200)
}

/// On records of every shape, fit or far from it, the quick calls are what is defined.
fn as_defined_on_every_shape(run: &mut Run) -> Result<(), String> {
    for shape in SHAPES {
        try_shape(run, WITH_DEFINITION, shape, 5_000)?;
    }
    run.demand(&[(Seen::UnfitRecord, 10_000), (Seen::JoinedElsewhere, 500), (Seen::PurgedFrame, 10_000)])?;
    run.demand(&[BEST_EFFORT_FULL, BEST_EFFORT_EXCEEDED].map(|refusal| (Seen::Refused(refusal), 1_000)))?;
    run.demand(&[(Seen::BestEffort, 5_000), (Seen::BestEffortAtLimit, 200), (Seen::BestEffortWrapped, 500)])?;
    run.demand(&[(Seen::FrameRefused(NOT_RESERVED), 2_000), (Seen::Refused(PAIR_BOUND_ALREADY), 500), (Seen::AllBound, 5)])?;
    run.demand(&[(Seen::Bound, 5_000), (Seen::FrameArrived, 3_000), (Seen::FrameBestEffort, 5_000)])?;
    run.demand(&[(Seen::Withdrawn, 5_000), (Seen::Freed, 3_000), (Seen::FrameRefused(DRAINING), 500)])?;
    run.demand(&OF_DRAINING.map(|seen| (seen, 500)))?;
    demand_registers(run, 800)
}

/// In lists that begin on an open record far outside what is fit, the quick calls are what is defined.
fn as_defined_in_lists(run: &mut Run) -> Result<(), String> {
    play(run, WITH_DEFINITION, &Plan { lists: 1_000, calls: 300, begin: extreme }, any_profile)?;
    play(run, WITH_DEFINITION, &Plan { lists: 500, calls: 300, begin: any_open }, any_profile)?;
    play(run, WITH_DEFINITION, &Plan { lists: 300, calls: 150, begin: bindings_of_every_sort }, any_profile)?;
    run.demand(&[(Seen::JoinedElsewhere, 500), (Seen::SentFromBestEffort, 500), (Seen::Refused(QUEUE_FULL), 500)])?;
    run.demand(&[(Seen::BestEffort, 1_000), (Seen::Refused(BEST_EFFORT_FULL), 500), (Seen::Refused(BEST_EFFORT_EXCEEDED), 1_000)])?;
    run.demand(&[(Seen::Bound, 2_000), (Seen::FrameArrived, 4_000), (Seen::FrameRefused(NOT_RESERVED), 500)])?;
    run.demand(&[(Seen::Withdrawn, 2_000), (Seen::Freed, 2_000), (Seen::GrantedAgain, 200), (Seen::Refused(DRAINING), 5_000)])?;
    demand_registers(run, 200)
}

/// On records with one broken clause the quick calls are what is defined.
fn as_defined_on_broken_clauses(run: &mut Run) -> Result<(), String> {
    for breach in broken::all() {
        for round in 0..run.scaled(4) * breach.sites * 2 {
            let mut random = run.next_record(breach.name);
            let (_, past) = breach.at_boundary_and_past(&mut random, round % 2 == 0, round / 2 % breach.sites);
            let compared = Compared::guarded(WITH_DEFINITION, run, &past.record, &past.memory);
            try_each_call(run, &mut random, compared, &past)?;
        }
    }
    run.demand(&[(Seen::UnfitRecord, 5_000)])
}

/// At all lengths the quick calls are what is defined.
fn as_defined_at_all_lengths(run: &mut Run) -> Result<(), String> {
    try_lengths(run, 12, |run, _, octets| Compared::guarded(WITH_DEFINITION, run, &octets.record, &octets.memory))?;
    run.demand(&[MEMORY_SHORT, RECORD_UNFIT, PORT_CLOSED].map(|refusal| (Seen::Refused(refusal), 100)))?;
    run.demand(&OF_ACCESSES.map(|seen| (seen, 20)))?;
    run.demand(&[(Seen::Opened, 50), (Seen::Ticked, 50), (Seen::Withdrawn, 50), (Seen::Freed, 20)])
}
