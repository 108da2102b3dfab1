//! The kind `records`: each call on records of any content and length, the proved calls against the model.

use crate::call::Call;
use crate::comparing::broken::{Breach, OF_BINDINGS, OF_FRAMES, OF_OPEN_PORTS, OF_QUEUES, OF_STREAMS};
use crate::comparing::calls::each_call;
use crate::comparing::compared::Compared;
use crate::comparing::counts::Counting;
use crate::comparing::coverage::Seen;
use crate::comparing::fit::Octets;
use crate::comparing::registers::{is_outside, EVERY_COUNT};
use crate::comparing::shapes::{any_fit, any_open, bindings_of_every_sort, near_fit, sparse, zeros_and_ones};
use crate::comparing::sides::Side;
use crate::comparing::test::{Kind, Run, Test};
use crate::comparing::tests::counts::{OF_COUNTS, QUESTIONS};
use crate::comparing::tests::each_call::{try_lengths, try_shape};
use crate::comparing::tests::register_lists::demand_registers;
use crate::comparing::tests::registers::OF_ACCESSES;
use crate::comparing::tests::withdrawals::OF_DRAINING;
use crate::model::fitness::unfit;
use crate::model::refusal::*;

/// The tests of this kind.
pub const TESTS: [Test; 12] = [
    test("fit_records", fit_records),
    test("any_octets", any_octets),
    test("sparse_octets", sparse_octets),
    test("zeros_and_ones", records_of_zeros_and_ones),
    test("near_fit_records", near_fit_records),
    test("records_with_bindings_of_every_sort", records_with_bindings_of_every_sort),
    test("clauses_of_queues", clauses_of_queues),
    test("clauses_of_streams", clauses_of_streams),
    test("clauses_of_bindings", clauses_of_bindings),
    test("clauses_of_frames", clauses_of_frames),
    test("clauses_of_open_ports", clauses_of_open_ports),
    test("lengths", lengths),
];

/// The sides of this kind.
const SIDES: [Side; 2] = [Side::Exports, Side::Model];

/// A test of this kind.
const fn test(name: &'static str, body: fn(&mut Run) -> Result<(), String>) -> Test {
    Test { kind: Kind::Records, name, body }
}

/// Fit records of any content, open and closed.
fn fit_records(run: &mut Run) -> Result<(), String> {
    try_shape(run, SIDES, ("fit", any_fit), 3_000)?;
    run.demand_none(Seen::UnfitRecord)?;
    run.demand(&[(Seen::EnvelopeWaits, 500), (Seen::EnvelopeJoined, 100), (Seen::EnvelopeBestEffort, 100)])?;
    let met = [PORT_CLOSED, OPEN_ALREADY, LINK_OUTSIDE, DELAY_OUTSIDE, STREAM_ABOVE, RESERVED_ALREADY, PERMITTED_BELOW, SHARE_EXCEEDED];
    run.demand(&met.map(|refusal| (Seen::Refused(refusal), 100)))?;
    run.demand(&[NOT_RESERVED, CHARGE_OUTSIDE, DISCARD, QUEUE_FULL].map(|refusal| (Seen::Refused(refusal), 100)))?;
    run.demand(&[BEST_EFFORT_FULL, BEST_EFFORT_EXCEEDED].map(|refusal| (Seen::Refused(refusal), 100)))?;
    run.demand(&[
        (Seen::BestEffort, 1_000),
        (Seen::BestEffortAtLimit, 50),
        (Seen::BestEffortFullAndAbove, 100),
        (Seen::BestEffortWrapped, 50),
    ])?;
    run.demand(&[VID_OUTSIDE, BOUND_ALREADY, PAIR_BOUND_ALREADY].map(|refusal| (Seen::Refused(refusal), 50)))?;
    run.demand(
        &[DISCARD, BEST_EFFORT_FULL, BEST_EFFORT_EXCEEDED, FRAME_LENGTH, QUEUE_FULL].map(|refusal| (Seen::FrameRefused(refusal), 50)),
    )?;
    run.demand(&[(Seen::Bound, 500), (Seen::FrameArrived, 400), (Seen::FrameBestEffort, 1_000)])?;
    run.demand(&[(Seen::Withdrawn, 2_000), (Seen::Freed, 500), (Seen::DrainingEndedByOpen, 500), (Seen::FrameRefused(DRAINING), 100)])?;
    run.demand(&OF_DRAINING.map(|seen| (seen, 50)))?;
    run.demand(&EVERY_COUNT.map(|count| (Seen::CountWrapped(count), 200)))?;
    run.demand(&OF_COUNTS.map(|counting| (Seen::Counting(counting), 40)))?;
    run.demand(&[Counting::Zeroed, Counting::KeptWhenRefused, Counting::KeptWhenFreed].map(|kept| (Seen::Counting(kept), 300)))?;
    run.demand(&[(Seen::OtherMarkCleared, 100), (Seen::WriteRefused(PORT_CLOSED), 100)])?;
    demand_registers(run, 100)
}

/// Records of any octets, and such with the mark of an open port.
fn any_octets(run: &mut Run) -> Result<(), String> {
    try_shape(run, SIDES, ("any octets", Octets::any), 1_000)?;
    try_shape(run, SIDES, ("any octets, open", any_open), 1_000)?;
    run.demand(&[(Seen::UnfitRecord, 1_900)])
}

/// Records of zeros with a few other octets.
fn sparse_octets(run: &mut Run) -> Result<(), String> {
    try_shape(run, SIDES, ("few octets that are not zero", sparse), 3_000)?;
    run.demand(&[(Seen::FitRecord, 300), (Seen::UnfitRecord, 300)])
}

/// Records of zeros and ones.
fn records_of_zeros_and_ones(run: &mut Run) -> Result<(), String> {
    try_shape(run, SIDES, ("zeros and ones", zeros_and_ones), 2_000)?;
    run.demand(&[(Seen::UnfitRecord, 500)])
}

/// Fit records with one to three octets changed.
fn near_fit_records(run: &mut Run) -> Result<(), String> {
    try_shape(run, SIDES, ("near fit", near_fit), 5_000)?;
    run.demand(&[(Seen::FitRecord, 500), (Seen::UnfitRecord, 500)])
}

/// Records that are fit but for their bindings, or are fit with them.
fn records_with_bindings_of_every_sort(run: &mut Run) -> Result<(), String> {
    try_shape(run, SIDES, ("bindings of every sort", bindings_of_every_sort), 3_000)?;
    run.demand(&[(Seen::FitRecord, 30), (Seen::UnfitRecord, 2_000)])
}

/// All lengths of record and memory, with fit and unfit content.
fn lengths(run: &mut Run) -> Result<(), String> {
    try_lengths(run, 8, |run, _, octets| Compared::guarded(SIDES, run, &octets.record, &octets.memory))?;
    run.demand(&[MEMORY_SHORT, RECORD_UNFIT, PORT_CLOSED].map(|refusal| (Seen::Refused(refusal), 100)))?;
    run.demand(&OF_ACCESSES.map(|seen| (seen, 10)))?;
    run.demand(&QUESTIONS.map(|counting| (Seen::Counting(counting), 40)))?;
    run.demand(&[(Seen::Opened, 40), (Seen::Ticked, 30), (Seen::Withdrawn, 30), (Seen::Freed, 10)])
}

/// 19 for what the record says of prior, of starts and of counts.
fn clauses_of_queues(run: &mut Run) -> Result<(), String> {
    break_each(run, &OF_QUEUES)
}

/// 19 for what the record says of the places, lefts and draining counts of reserved streams.
fn clauses_of_streams(run: &mut Run) -> Result<(), String> {
    break_each(run, &OF_STREAMS)
}

/// 19 for what the record says of bindings.
fn clauses_of_bindings(run: &mut Run) -> Result<(), String> {
    break_each(run, &OF_BINDINGS)
}

/// 19 for waiting frames and for W.
fn clauses_of_frames(run: &mut Run) -> Result<(), String> {
    break_each(run, &OF_FRAMES)
}

/// 19 for L, K and P, on an open port alone.
fn clauses_of_open_ports(run: &mut Run) -> Result<(), String> {
    break_each(run, &OF_OPEN_PORTS)
}

/// Breaks a clause in each way of a table, at each site, on an open and on a closed port.
fn break_each(run: &mut Run, breaches: &[Breach]) -> Result<(), String> {
    for breach in breaches {
        let times = run.scaled(if breach.sites == 1 { 200 } else { 4 });
        for round in 0..times * breach.sites * 2 {
            break_once(run, breach, round / 2 % breach.sites, round % 2 == 0)?;
        }
    }
    Ok(())
}

/// Breaks one clause once: fit before the change, just that clause after it, and every call replies so on both sides.
fn break_once(run: &mut Run, breach: &Breach, site: usize, open: bool) -> Result<(), String> {
    let mut random = run.next_record(&format!("{}, site {site}, open {open}", breach.name));
    let (at_boundary, past) = breach.at_boundary_and_past(&mut random, open, site);
    let broken = [unfit(&at_boundary.record, &at_boundary.memory), unfit(&past.record, &past.memory)];
    if broken != [vec![], breach.broken(open)] {
        return Err(format!("{}: the model finds broken {:?} before the change and {:?} after it", run.place, broken[0], broken[1]));
    }
    let before = each_call(&mut random, &at_boundary.record);
    expect_unfit(run, &at_boundary, &[random.pick(&before)], false)?;
    let after = each_call(&mut random, &past.record);
    expect_unfit(run, &past, &after, !broken[1].is_empty())
}

/// Each call, on the same octets, is refused with 19 on both sides, or is not; 26 comes before that, and a lookup and a question for a stream's counts
/// take a record of any content.
fn expect_unfit(run: &mut Run, octets: &Octets, calls: &[Call], unfit: bool) -> Result<(), String> {
    run.coverage.count(if unfit { Seen::UnfitRecord } else { Seen::FitRecord });
    let mut compared = Compared::guarded(SIDES, run, &octets.record, &octets.memory);
    for call in calls {
        let unfit = unfit && !is_outside(call) && !matches!(call, Call::Lookup { .. } | Call::StreamCounts { .. });
        let words = if unfit { "19" } else { "anything but 19" };
        compared.lend_again(&octets.record, &octets.memory);
        compared.expect(run, call, |reply| (reply.refusal == RECORD_UNFIT) == unfit, words)?;
    }
    Ok(())
}
