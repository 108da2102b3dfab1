//! The kind `guarantee`: demand 3, and what is claimed of a stream's counts, held against lists of calls through the proved calls and quick calls, and
//! through the model, each test with lists of one manner. To each list others are written that are alike in one stream's own calls.

use crate::call::{Call, Given, Reply};
use crate::comparing::calls::Profile;
use crate::comparing::coverage::Seen;
use crate::comparing::fit::{no_mark, Octets};
use crate::comparing::frames::Header;
use crate::comparing::profiles::any_profile;
use crate::comparing::random::Random;
use crate::comparing::sides::{Play, Side};
use crate::comparing::test::{Kind, Run, Test};
use crate::comparing::tests::lists::a_closed_port;
use crate::guarantee::found::Link::{ByBoth, ByIdle, ByOctets, Failed};
use crate::guarantee::found::Shown::{self, *};
use crate::guarantee::found::{Alike, Broken, Found, Prompt};
use crate::guarantee::list::{Event, Playing};
use crate::guarantee::writing::{write, write_any, Manner, Service};
use crate::guarantee::{alike, becoming};
use crate::model::port::{LINKS, STREAMS};
use crate::model::refusal::NOT_RESERVED;
use crate::{exports, layout};

/// The tests of this kind.
pub const TESTS: [Test; 14] = [
    test("guarantee_in_lists_of_any_calls", lists_of_any_calls),
    test("guarantee_beside_overfilled_streams", beside_overfilled_streams),
    test("guarantee_of_streams_that_conform_for_a_while", of_streams_that_conform_for_a_while),
    test("guarantee_where_marks_alone_tell_frames_apart", where_marks_alone_tell_frames_apart),
    test("guarantee_where_just_the_share_is_sent", where_just_the_share_is_sent),
    test("guarantee_where_one_frame_too_few_is_sent", where_one_frame_too_few_is_sent),
    test("guarantee_of_withdrawn_streams", of_withdrawn_streams),
    test("guarantee_of_withdrawn_streams_where_ticks_purge", of_withdrawn_streams_where_ticks_purge),
    test("guarantee_where_the_link_is_idle", where_the_link_is_idle),
    test("guarantee_in_full_queues", in_full_queues),
    test("guarantee_of_many_streams_in_long_lists", of_many_streams_in_long_lists),
    test("guarantee_is_tight", is_tight),
    test("guarantee_of_the_model", of_the_model),
    test("guarantee_of_counts_where_withdrawals_are_refused", of_counts_where_withdrawals_are_refused),
];

/// The proved calls and quick calls, on which lists are played in turn.
const PROVED: [Side; 2] = [Side::Exports, Side::Quick];

/// How many events before a broken claim its report tells.
const TOLD: usize = 12;
/// How many lists are written that are alike to a list.
const ALIKE: usize = 2;

/// A test of this kind.
const fn test(name: &'static str, body: fn(&mut Run) -> Result<(), String>) -> Test {
    Test { kind: Kind::Guarantee, name, body }
}

/// Streams that overfill beside streams that offer all they may and no more, with the share filled and the link serving either way.
const OVERFILLED: Manner = Manner {
    links: 2_620..=12_478,
    streams: 2..=12,
    conforming: 50,
    ceasing: 0,
    least: false,
    one_tag: false,
    exact: 60,
    pressed: true,
    turns: 0..=30,
    best_effort: 3,
    transmit: 8,
    services: &[Service::Share, Service::Share, Service::Share, Service::Idle],
    ticks: 4..=14,
    withdrawn: 0,
};

/// Streams that offer all they may and no more, most of them until some tick, and then overfill.
const CEASING: Manner = Manner { conforming: 90, ceasing: 20, ..OVERFILLED };

/// Few streams, all of whose frames have one charge and one tag.
const TWINS: Manner = Manner { streams: 1..=4, least: true, one_tag: true, turns: 0..=20, ..OVERFILLED };

/// Streams of which most overfill, with no octet of the share left over, and a link that serves the share and no frame more.
const JUST_THE_SHARE: Manner = Manner {
    streams: 1..=8,
    conforming: 20,
    exact: 100,
    turns: 0..=12,
    services: &[Service::Share],
    links: *LINKS.start()..=9_478,
    ..OVERFILLED
};

/// The same with a link that now and then serves one frame too few.
const ONE_FRAME_SHORT: Manner =
    Manner { conforming: 0, services: &[Service::Share, Service::Share, Service::Share, Service::OneFrameShort], ..JUST_THE_SHARE };

/// Streams that are withdrawn again and again, and of which others take number and share as soon as they are free, with no octet of it left over.
const WITHDRAWN: Manner = Manner { streams: 1..=6, conforming: 60, withdrawn: 12, ticks: 10..=24, turns: 0..=12, ..JUST_THE_SHARE };

/// The same with a link that now and then serves one frame too few.
const WITHDRAWN_AND_SHORT: Manner = Manner { services: ONE_FRAME_SHORT.services, ..WITHDRAWN };

/// Streams that offer less than they may, beside best effort, and a link that has time left.
const IDLE: Manner = Manner {
    links: LINKS,
    streams: 1..=16,
    conforming: 70,
    pressed: false,
    turns: 5..=50,
    best_effort: 8,
    services: &[Service::Idle],
    ..OVERFILLED
};

/// Queues of 256 frames, each of the least charge.
const FULL: Manner = Manner {
    links: *LINKS.end()..=*LINKS.end(),
    streams: 1..=6,
    conforming: 30,
    least: true,
    turns: 0..=20,
    services: &[Service::Share, Service::Share, Service::Idle],
    ticks: 4..=7,
    ..OVERFILLED
};

/// All 64 streams, and many ticks.
const MANY: Manner = Manner {
    links: 15_478..=*LINKS.end(),
    streams: STREAMS as u32..=STREAMS as u32,
    turns: 0..=60,
    services: &[Service::Share, Service::Share, Service::Share, Service::Share, Service::Idle],
    ticks: 20..=40,
    ..OVERFILLED
};

/// Lists of any calls, refused ones included; before their ticks the link serves always, most often or never.
fn lists_of_any_calls(run: &mut Run) -> Result<(), String> {
    hold(run, &PROVED, 4_000, any_list)?;
    demand(run, &[(Link(ByBoth), 20), (Link(ByIdle), 1_000), (Link(Failed), 1_000), (Purging, 3_000)])?;
    demand(run, &[(SentInTime, 50_000), (Conforming, 30_000), (ConformingSent, 20_000)])?;
    demand(run, &[(SentAsCurrent, 50_000), (SentAsNext, 7_000), (SentAsLast, 5_000), (SentAsRepliedLate, 6_000)])?;
    demand(run, &[(BeginningList, 900), (Beginning, 8_000), (BeginningSent, 6_000), (BeginningAfterFirst, 1_000)])?;
    demand(run, &[(TwinsList, 1_000), (Twin, 5_000), (Pair, 4_000), (ArrivalCompared, 80_000)])?;
    demand(run, &[(FrameArrival, 30_000), (FrameBestEffort, 60_000), (FrameCompared, 40_000)])?;
    demand(run, &[(Withdrawal, 3_000), (RefusedDraining, 10_000), (RefusedFree, 500), (GrantedAgain, 1_000), (WithdrawalCompared, 500)])?;
    demand(run, &[(CountAsked, 25_000), (CountShown, 7_000), (CountOfNone, 1_000), (DiscardsTold, 15_000), (CountedAnew, 1_500)])?;
    demand(run, &[(ControlTick, 10_000), (ControlTransmit, 20_000), (CountCompared, 12_000)])
}

/// Conforming streams beside streams that overfill.
fn beside_overfilled_streams(run: &mut Run) -> Result<(), String> {
    hold(run, &PROVED, 2_000, in_manner(&OVERFILLED))?;
    run.demand_none(Seen::Shown(Link(Failed)))?;
    demand(run, &[(Link(ByBoth), 800), (SentInTime, 80_000), (SentAfterThird, 1_000)])?;
    demand(run, &[(SentAsCurrent, 50_000), (SentAsNext, 6_000), (SentAsLast, 30_000), (SentAsRepliedLate, 20_000)])?;
    demand(run, &[(Conforming, 50_000), (ConformingSent, 40_000), (ConformingAfterFirst, 10_000)])?;
    demand(run, &[(BeginningList, 1_000), (Beginning, 6_000), (BeginningSent, 6_000), (BeginningAfterFirst, 4_000)])?;
    demand(run, &[(ControlTick, 4_000), (ControlTransmit, 50_000)])?;
    demand(run, &[(CountAsked, 25_000), (CountShown, 7_000), (DiscardsTold, 15_000), (CountCompared, 14_000)])?;
    demand(run, &[(Pair, 2_000), (ArrivalCompared, 50_000), (FrameArrival, 70_000), (FrameBestEffort, 9_000), (FrameCompared, 25_000)])
}

/// Streams that conform for a while, then overfill, beside a few that conform to the end.
fn of_streams_that_conform_for_a_while(run: &mut Run) -> Result<(), String> {
    hold(run, &PROVED, 1_500, in_manner(&CEASING))?;
    run.demand_none(Seen::Shown(Link(Failed)))?;
    demand(run, &[(BeginningList, 1_200), (Beginning, 30_000), (BeginningSent, 30_000), (BeginningAfterFirst, 10_000)])?;
    demand(run, &[(Conforming, 8_000), (ConformingSent, 6_000), (ConformingAfterFirst, 2_000)])?;
    demand(run, &[(Pair, 1_500), (ArrivalCompared, 40_000), (FrameArrival, 60_000), (FrameCompared, 20_000)])
}

/// Frames that wait together and have the same stream, charge and tag.
fn where_marks_alone_tell_frames_apart(run: &mut Run) -> Result<(), String> {
    hold(run, &PROVED, 1_000, in_manner(&TWINS))?;
    run.demand_none(Seen::Shown(Link(Failed)))?;
    demand(run, &[(TwinsList, 950), (Twin, 200_000), (SentInTime, 150_000), (SentAfterThird, 5_000)])?;
    demand(run, &[(SentAsCurrent, 100_000), (SentAsNext, 12_000), (SentAsLast, 60_000), (SentAsRepliedLate, 40_000)])?;
    demand(run, &[(Conforming, 100_000), (ConformingAfterFirst, 15_000), (Beginning, 10_000), (BeginningAfterFirst, 6_000)])?;
    demand(run, &[(Pair, 1_000), (ArrivalCompared, 200_000), (FrameArrival, 150_000), (FrameCompared, 150_000)])
}

/// A link that sends the share, or just above it, and is idle only where less than that waits.
fn where_just_the_share_is_sent(run: &mut Run) -> Result<(), String> {
    hold(run, &PROVED, 3_000, in_manner(&JUST_THE_SHARE))?;
    run.demand_none(Seen::Shown(Link(Failed)))?;
    demand(run, &[(Link(ByOctets), 1_000), (SentInTime, 80_000), (SentAfterThird, 20_000)])?;
    demand(run, &[(SentAsCurrent, 25_000), (SentAsNext, 10_000), (SentAsLast, 50_000), (SentAsRepliedLate, 40_000)])?;
    demand(run, &[(Conforming, 20_000), (ConformingSent, 15_000), (ConformingAfterFirst, 8_000)])?;
    demand(run, &[(BeginningList, 1_500), (Beginning, 8_000), (BeginningSent, 8_000), (BeginningAfterFirst, 6_000)])?;
    demand(run, &[(Pair, 3_000), (ArrivalCompared, 80_000), (FrameArrival, 70_000), (FrameCompared, 40_000)])
}

/// A link that sends one frame too few, so that ticks purge; the last sentence of the demand holds all the same.
fn where_one_frame_too_few_is_sent(run: &mut Run) -> Result<(), String> {
    hold(run, &PROVED, 2_000, in_manner(&ONE_FRAME_SHORT))?;
    demand(run, &[(Link(Failed), 1_000), (Purging, 800), (Pair, 2_000), (ArrivalCompared, 60_000)])?;
    demand(run, &[(FrameArrival, 50_000), (FrameCompared, 30_000)])
}

/// Streams that are withdrawn, drain and are granted again while the link sends just the share.
fn of_withdrawn_streams(run: &mut Run) -> Result<(), String> {
    hold(run, &PROVED, 1_000, in_manner(&WITHDRAWN))?;
    run.demand_none(Seen::Shown(Link(Failed)))?;
    demand(run, &[(Link(ByBoth), 700), (SentInTime, 60_000), (SentAfterThird, 2_000), (SentAsLast, 20_000)])?;
    demand(run, &[(Withdrawal, 4_000), (RefusedDraining, 15_000), (RefusedFree, 300), (GrantedAgain, 2_000)])?;
    demand(run, &[(Withdrawn, 20_000), (WithdrawnSent, 20_000), (WithdrawnAfterFirst, 5_000), (Conforming, 10_000), (Beginning, 4_000)])?;
    demand(run, &[(CountAsked, 7_000), (CountedAnew, 3_000), (CountCompared, 5_000)])?;
    demand(run, &[(Pair, 1_200), (ArrivalCompared, 50_000), (FrameCompared, 20_000), (WithdrawalCompared, 1_500)])
}

/// The same where the link sends too little, so that ticks purge: numbers, share and replies are what they are all the same.
fn of_withdrawn_streams_where_ticks_purge(run: &mut Run) -> Result<(), String> {
    hold(run, &PROVED, 500, in_manner(&WITHDRAWN_AND_SHORT))?;
    demand(run, &[(Link(Failed), 400), (Purging, 80), (Withdrawal, 2_000), (RefusedDraining, 8_000), (GrantedAgain, 1_000)])?;
    demand(run, &[(Pair, 600), (ArrivalCompared, 25_000), (WithdrawalCompared, 800), (CountedAnew, 1_500), (CountCompared, 2_500)])
}

/// A link with time left: between any two ticks a transmit sends nothing, or best effort.
fn where_the_link_is_idle(run: &mut Run) -> Result<(), String> {
    hold(run, &PROVED, 3_000, in_manner(&IDLE))?;
    run.demand_none(Seen::Shown(Link(Failed)))?;
    demand(run, &[(Link(ByIdle), 1_000), (SentInTime, 60_000)])?;
    demand(run, &[(SentAsCurrent, 80_000), (SentAsNext, 5_000), (SentAsLast, 3_000), (SentAsRepliedLate, 12_000)])?;
    demand(run, &[(Conforming, 80_000), (ConformingSent, 60_000), (ConformingAfterFirst, 10_000)])?;
    demand(run, &[(BeginningList, 1_200), (Beginning, 8_000), (BeginningSent, 7_000), (BeginningAfterFirst, 2_000)])?;
    demand(run, &[(Pair, 3_000), (ArrivalCompared, 40_000), (FrameArrival, 60_000), (FrameBestEffort, 60_000), (FrameCompared, 20_000)])
}

/// Queues of 256 frames, which no list from an opening finds full.
fn in_full_queues(run: &mut Run) -> Result<(), String> {
    hold(run, &PROVED, 200, in_manner(&FULL))?;
    run.demand_none(Seen::Shown(Link(Failed)))?;
    demand(run, &[(SentInTime, 80_000), (SentAfterThird, 100), (Conforming, 10_000), (ConformingAfterFirst, 300)])?;
    demand(run, &[(SentAsNext, 6_000), (SentAsLast, 20_000), (Beginning, 6_000), (TwinsList, 150), (Twin, 60_000)])?;
    demand(run, &[(Pair, 150), (ArrivalCompared, 60_000), (FrameArrival, 70_000), (FrameCompared, 50_000), (CountCompared, 20_000)])
}

/// All 64 streams over many ticks.
fn of_many_streams_in_long_lists(run: &mut Run) -> Result<(), String> {
    hold(run, &PROVED, 100, in_manner(&MANY))?;
    run.demand_none(Seen::Shown(Link(Failed)))?;
    demand(run, &[(SentInTime, 100_000), (Conforming, 60_000), (ConformingAfterFirst, 2_000)])?;
    demand(run, &[(SentAsNext, 3_000), (SentAsLast, 40_000), (Beginning, 1_500), (BeginningAfterFirst, 500)])?;
    demand(run, &[(Pair, 80), (ArrivalCompared, 2_000), (FrameArrival, 60_000), (FrameCompared, 1_500), (CountAsked, 18_000)])
}

/// The model keeps the demand too; faults that cannot be seeded in the exports are seeded there.
fn of_the_model(run: &mut Run) -> Result<(), String> {
    hold(run, &[Side::Model], 60, any_list)?;
    for (manner, lists) in [(&OVERFILLED, 80), (&JUST_THE_SHARE, 200), (&ONE_FRAME_SHORT, 80), (&WITHDRAWN, 80), (&IDLE, 80), (&FULL, 30)] {
        hold(run, &[Side::Model], lists, in_manner(manner))?;
    }
    demand(run, &[(Link(ByOctets), 10), (Link(ByIdle), 20), (Link(Failed), 20), (Purging, 10)])?;
    demand(run, &[(SentAsCurrent, 4_000), (SentAsNext, 800), (SentAsLast, 2_000), (Beginning, 800), (Twin, 1_000)])?;
    demand(run, &[(SentInTime, 5_000), (Conforming, 3_000), (Pair, 100), (ArrivalCompared, 5_000)])?;
    demand(run, &[(FrameArrival, 10_000), (FrameBestEffort, 2_500), (FrameCompared, 8_000)])?;
    demand(run, &[(Withdrawal, 200), (Withdrawn, 500), (RefusedDraining, 500), (GrantedAgain, 100)])?;
    demand(run, &[(CountAsked, 7_000), (CountShown, 2_000), (DiscardsTold, 4_000), (CountedAnew, 200), (CountCompared, 7_000)])?;
    demand(run, &[(ControlTick, 500), (ControlTransmit, 5_000)])
}

/// A port of another make, which refuses every withdrawal as if its stream were not reserved.
fn refusing_withdrawals(call: &Given, port: &mut [u8], memory: &mut [u8]) -> Reply {
    match call {
        Call::Withdraw { .. } => Reply::refused(NOT_RESERVED),
        _ => exports::call(call, port, memory),
    }
}

/// What is claimed of counts goes by the replies: on a port that refuses a withdrawal which ours would grant, its stream's counts go on.
fn of_counts_where_withdrawals_are_refused(run: &mut Run) -> Result<(), String> {
    for _ in 0..run.scaled(100) {
        let mut random = run.next_list();
        let begin = a_port_to_open(&mut random, Side::Exports);
        let events = write(&mut random, refusing_withdrawals, &begin, &WITHDRAWN);
        let counts = (run.sides.counts)(&events).map_err(|broken| report(run, Side::Exports, &events, &broken))?;
        let refused = events.iter().filter(|event| matches!(event.call, Call::Withdraw { .. })).count();
        run.calls += events.len() as u64;
        run.coverage.add(Seen::Refused(NOT_RESERVED), refused as u64);
        counts.shown().into_iter().for_each(|(shown, times)| run.coverage.add(Seen::Shown(shown), times));
    }
    run.demand_none(Seen::Shown(CountedAnew))?;
    run.demand(&[(Seen::Refused(NOT_RESERVED), 300)])?;
    demand(run, &[(CountAsked, 700), (DiscardsTold, 300)])
}

/// Fails if lists showed a thing less often than is asked at full size.
fn demand(run: &Run, demands: &[(Shown, u64)]) -> Result<(), String> {
    let demands: Vec<(Seen, u64)> = demands.iter().map(|&(shown, times)| (Seen::Shown(shown), times)).collect();
    run.demand(&demands)
}

/// Writes lists of any calls.
fn any_list(random: &mut Random, play: Play, begin: &Octets) -> Vec<Event> {
    let mut profile: Profile = any_profile(random);
    profile.weights.close = 0;
    profile.weights.tick = profile.weights.tick.max(1);
    let served = random.pick(&[0, 90, 100, 100]);
    write_any(random, play, begin, &profile, 350, served)
}

/// Writes lists in a manner.
fn in_manner(manner: &Manner) -> impl Fn(&mut Random, Play, &Octets) -> Vec<Event> + '_ {
    |random, play, begin| write(random, play, begin, manner)
}

/// What a list's Open is given: closed and fit, or, for the quick calls, closed and any octets.
fn a_port_to_open(random: &mut Random, side: Side) -> Octets {
    let mut octets = if side == Side::Quick { Octets::any(random) } else { a_closed_port(random) };
    if octets.is_open() {
        octets.record[layout::OPEN] = no_mark(random);
    }
    octets
}

/// Holds so many lists against the demand, played on the sides in turn, each alone and beside lists that are alike in one stream's own calls.
fn hold(run: &mut Run, sides: &[Side], lists: usize, write: impl Fn(&mut Random, Play, &Octets) -> Vec<Event>) -> Result<(), String> {
    for number in 0..run.scaled(lists) {
        let side = sides[number % sides.len()];
        let mut random = run.next_list();
        let begin = a_port_to_open(&mut random, side);
        let events = write(&mut random, run.sides.play(side), &begin);
        hold_one(run, side, &events)?;
        for _ in 0..ALIKE {
            hold_pair(run, &mut random, side, &events)?;
        }
    }
    Ok(())
}

/// Holds one list against the demand, and counts what it showed.
fn hold_one(run: &mut Run, side: Side, events: &[Event]) -> Result<Found, String> {
    let found = (run.sides.check)(events).map_err(|broken| report(run, side, events, &broken))?;
    run.calls += events.len() as u64;
    let numbers = (run.sides.numbers)(events).map_err(|broken| report(run, side, events, &broken))?;
    let counts = (run.sides.counts)(events).map_err(|broken| report(run, side, events, &broken))?;
    for (shown, times) in found.shown().into_iter().chain(numbers.shown()).chain(counts.shown()) {
        run.coverage.add(Seen::Shown(shown), times);
    }
    Ok(found)
}

/// Holds a list beside another that is alike in one stream's own calls; the other is a list too.
fn hold_pair(run: &mut Run, random: &mut Random, side: Side, events: &[Event]) -> Result<(), String> {
    let stream = a_stream_of(random, events);
    let begin = a_port_to_open(random, side);
    let other = alike::write(random, run.sides.play(side), &begin, events, stream);
    (run.sides.check)(&other).map_err(|broken| report(run, side, &other, &broken))?;
    (run.sides.numbers)(&other).map_err(|broken| report(run, side, &other, &broken))?;
    (run.sides.counts)(&other).map_err(|broken| report(run, side, &other, &broken))?;
    run.calls += other.len() as u64;
    match (run.sides.pair)(events, &other, stream).map_err(|words| format!("{}, {side}: {words}", run.place))? {
        Some(Alike { arrivals, frames, withdrawals, counts }) => {
            run.coverage.count(Seen::Shown(Pair));
            run.coverage.add(Seen::Shown(ArrivalCompared), arrivals);
            run.coverage.add(Seen::Shown(FrameCompared), frames);
            run.coverage.add(Seen::Shown(WithdrawalCompared), withdrawals);
            run.coverage.add(Seen::Shown(CountCompared), counts);
        }
        None => run.coverage.count(Seen::Shown(PairApart)),
    }
    Ok(())
}

/// A stream on which a frame of the list arrives, or any.
fn a_stream_of(random: &mut Random, events: &[Event]) -> u8 {
    let any = random.below(STREAMS) as u8;
    let named = |call: Call| match call {
        Call::Arrive { stream, .. } => Some(stream),
        _ => None,
    };
    let streams: Vec<u8> = becoming::counted(events).into_iter().filter_map(named).collect();
    match streams.is_empty() || random.chance(5) {
        true => any,
        false => random.pick(&streams),
    }
}

/// All that a person needs to see a broken claim again.
fn report(run: &Run, side: Side, events: &[Event], broken: &Broken) -> String {
    let shown = broken.call.saturating_sub(TOLD)..=broken.call;
    let told: Vec<String> = events.iter().enumerate().filter(|(number, _)| shown.contains(number)).map(told).collect();
    format!("{}, {side}: call {}: {}\n    {}\n    {}", run.place, broken.call, broken.words, events[0].call, told.join("; "))
}

/// One event in a report.
fn told((number, event): (usize, &Event)) -> String {
    format!("{number} {} ({})", event.call, event.reply)
}

/// L 2,620, with a share of 600, and stream 5, which may have all of it and offers it three times over before the first tick.
const THREE_TIMES_THE_SHARE: [Call; 8] = [
    Call::Open { link: 2_620, delay: 1 },
    Call::Reserve { stream: 5, permitted: 600 },
    Call::Arrive { stream: 5, charge: 300, tag: 0 },
    Call::Arrive { stream: 5, charge: 300, tag: 0 },
    Call::Arrive { stream: 5, charge: 300, tag: 0 },
    Call::Arrive { stream: 5, charge: 300, tag: 0 },
    Call::Arrive { stream: 5, charge: 300, tag: 0 },
    Call::Arrive { stream: 5, charge: 300, tag: 0 },
];

/// After that and the withdrawal of stream 5: the fourth tick, at which all of the share is free, and stream 6, which may have all of it at once, has
/// it sent.
const SHARE_GRANTED_AGAIN: [Call; 7] = [
    Call::Tick,
    Call::Reserve { stream: 6, permitted: 600 },
    Call::Arrive { stream: 6, charge: 300, tag: 0 },
    Call::Arrive { stream: 6, charge: 300, tag: 0 },
    Call::Transmit,
    Call::Transmit,
    Call::Tick,
];

/// Nothing sooner can be promised: a frame that is not sent before the third tick, a conforming one that is not before the first; and nothing for
/// less: one frame too few, and a tick purges. One octet too few fails the condition as well, though no tick purges for it. A share that
/// is withdrawn while three queues are full of it is granted again at the fourth tick, and no tick purges.
fn is_tight(run: &mut Run) -> Result<(), String> {
    let epoch = [Call::Tick, Call::Transmit, Call::Transmit];
    let just_served = [&THREE_TIMES_THE_SHARE[..], &epoch, &epoch, &epoch, &[Call::Tick]].concat();
    let one_too_few = [&THREE_TIMES_THE_SHARE[..], &epoch, &epoch, &epoch[..2], &[Call::Tick]].concat();
    let one_octet_too_few = [&[Call::Open { link: 2_621, delay: 1 }], &just_served[1..]].concat();
    let conforming = [&THREE_TIMES_THE_SHARE[..4], &epoch, &[Call::Transmit, Call::Tick]].concat();
    let late = Prompt { current: 2, sent: 2, after_first: 2 };
    let granted_again =
        [&THREE_TIMES_THE_SHARE[..], &[Call::Withdraw { stream: 5 }], &epoch, &epoch, &epoch, &SHARE_GRANTED_AGAIN].concat();
    for side in [Side::Exports, Side::Quick, Side::Model] {
        let none = Found { twins: 5, ..Found::with(ByOctets) };
        let sent = Found { sent_in_time: 6, sent_after_third: 2, sent_as_replied: [2, 2, 2], sent_as_replied_late: 6, ..none };
        expect(run, side, &just_served, Found { beginning: late, ..sent })?;
        expect(run, side, &one_too_few, Found { link: Failed, purging: 1, twins: 4, ..none })?;
        expect(run, side, &one_octet_too_few, Found { link: Failed, ..none })?;
        expect(run, side, &by_frames(&just_served), Found { beginning: late, frame_arrivals: 6, ..sent })?;
        let controlled = Found { control_ticks: 4, control_transmits: 6, ..sent };
        expect(run, side, &by_control_writes(&just_served), Found { beginning: late, ..controlled })?;
        let purged = Found { link: Failed, purging: 1, twins: 4, control_ticks: 4, control_transmits: 5, ..none };
        expect(run, side, &by_control_writes(&one_too_few), purged)?;
        let current = Prompt { current: 2, ..Prompt::default() };
        expect(run, side, &granted_again, Found { beginning: late, conforming: current, twins: 6, ..sent })?;
        let sent = Found { sent_as_replied: [2, 0, 0], sent_as_replied_late: 2, conforming: late, ..none };
        expect(run, side, &conforming, Found { link: ByBoth, twins: 1, ..sent })?;
        expect(run, side, &by_frames(&conforming), Found { link: ByBoth, twins: 1, frame_arrivals: 2, ..sent })?;
    }
    Ok(())
}

/// A list with its ticks and transmits by control writes.
fn by_control_writes(calls: &[Call]) -> Vec<Call> {
    calls.iter().map(|call| becoming::by_control(call.clone(), u32::MAX)).collect()
}

/// A list of one stream with a Bind after its Reserve, and its arrivals by frames.
fn by_frames(calls: &[Call]) -> Vec<Call> {
    let bind = Call::Bind { stream: 5, address: [0; 6], vid: 1 };
    let header = Header::tagged([0; 6], 1);
    let by_frame = |call: &Call| match *call {
        Call::Arrive { charge, tag, .. } => header.frame(&mut Random::of(1, "by frames", 0), charge, tag),
        _ => call.clone(),
    };
    calls[..2].iter().cloned().chain([bind]).chain(calls[2..].iter().map(by_frame)).collect()
}

/// Just this is found in a list.
fn expect(run: &mut Run, side: Side, calls: &[Call], expected: Found) -> Result<(), String> {
    let mut random = run.next_list();
    let mut playing = Playing::new(run.sides.play(side), &a_port_to_open(&mut random, side));
    for call in calls {
        playing.call(call.clone());
    }
    match hold_one(run, side, &playing.events)? {
        found if found == expected => Ok(()),
        found => Err(format!("{}, {side}: {found:?} is found, and expected {expected:?}", run.place)),
    }
}
