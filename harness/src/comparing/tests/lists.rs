//! The kind `lists`: long lists of calls, the proved calls against the model, each test with one profile of steps.

use crate::call::{Call, Reply};
use crate::comparing::calls::{Charges, Permitted, Profile, Weights, NEVER, ORDINARY};
use crate::comparing::compared::{Compared, Step};
use crate::comparing::coverage::Seen;
use crate::comparing::fit::Octets;
use crate::comparing::profiles::{
    self, any_profile, few_ticks, FEW_STREAMS, FULL_LINK, HARDLY_ANY_TRANSMITS, MANY_STREAMS, WRONG_ARGUMENTS,
};
use crate::comparing::random::Random;
use crate::comparing::sides::Side;
use crate::comparing::test::{Kind, Run, Test};
use crate::comparing::tests::register_lists::demand_registers;
use crate::model::port::{CURRENT, LARGEST_CHARGE, LAST, LEAST_CHARGE, LEAST_PERMITTED, LINKS, NEXT};
use crate::model::refusal::*;

/// The tests of this kind.
pub const TESTS: [Test; 12] = [
    test("few_streams_pressed", few_streams_pressed),
    test("many_streams_pressed_to_the_share", many_streams_pressed_to_the_share),
    test("full_queues", full_queues),
    test("withheld_transmits", withheld_transmits),
    test("ring_starts_anywhere", ring_starts_anywhere),
    test("long_best_effort_queues", long_best_effort_queues),
    test("best_effort_to_the_limit_of_each_delay", best_effort_to_the_limit_of_each_delay),
    test("best_effort_between_transmits", best_effort_between_transmits),
    test("reservations_after_best_effort", reservations_after_best_effort),
    test("opened_again", opened_again),
    test("arguments_out_of_range", arguments_out_of_range),
    test("mixture", mixture),
];

/// The sides of this kind.
const SIDES: [Side; 2] = [Side::Exports, Side::Model];

/// A test of this kind.
const fn test(name: &'static str, body: fn(&mut Run) -> Result<(), String>) -> Test {
    Test { kind: Kind::Lists, name, body }
}

/// How many lists a test plays at full size, how many calls each has, and how it begins.
pub struct Plan {
    pub lists: usize,
    pub calls: usize,
    pub begin: fn(&mut Random) -> Octets,
}

/// The refusals of a planner's call, and those of an arrival's arguments.
pub const OF_PLANNER: [u8; 8] =
    [PORT_CLOSED, OPEN_ALREADY, LINK_OUTSIDE, DELAY_OUTSIDE, STREAM_ABOVE, RESERVED_ALREADY, PERMITTED_BELOW, SHARE_EXCEEDED];
pub const OF_SENDER: [u8; 2] = [NOT_RESERVED, CHARGE_OUTSIDE];

/// Few streams, which arrivals press at every place: exact fits and discards.
fn few_streams_pressed(run: &mut Run) -> Result<(), String> {
    play(run, SIDES, &Plan { lists: 200, calls: 1_000, begin: a_closed_port }, |_| FEW_STREAMS)?;
    never_met_from_opening(run)?;
    run.demand(&at_each_place(Seen::JoinedAt, 5_000))?;
    run.demand(&at_each_place(Seen::ExactFitAt, 1_000))?;
    run.demand(&[(Seen::EnvelopeJoined, 1_000), (Seen::EnvelopeFrame, 1_000)])?;
    run.demand(&[(Seen::Refused(DISCARD), 5_000), (Seen::FrameRefused(DISCARD), 2_000), (Seen::FrameArrived, 5_000)])
}

/// All 64 streams, with reservations up to the share and past it.
fn many_streams_pressed_to_the_share(run: &mut Run) -> Result<(), String> {
    play(run, SIDES, &Plan { lists: 150, calls: 800, begin: a_closed_port }, |_| MANY_STREAMS)?;
    never_met_from_opening(run)?;
    run.demand(&[(Seen::Refused(SHARE_EXCEEDED), 2_000), (Seen::ShareFilled, 40), (Seen::AllReserved, 30), (Seen::Reserved, 5_000)])?;
    run.demand(&[(Seen::Bound, 3_000), (Seen::FrameArrived, 2_000), (Seen::Refused(PAIR_BOUND_ALREADY), 500)])
}

/// Queues of 256 frames, each of the least charge: one stream with all of the share, or 64 with an equal part.
fn full_queues(run: &mut Run) -> Result<(), String> {
    play(run, SIDES, &Plan { lists: 20, calls: 3_000, begin: a_closed_port }, profiles::full_queues)?;
    never_met_from_opening(run)?;
    run.demand(&[(Seen::QueueFilled, 20), (Seen::Refused(DISCARD), 500), (Seen::PurgedFrame, 2_000)])
}

/// Hardly any transmits, so that ticks purge.
fn withheld_transmits(run: &mut Run) -> Result<(), String> {
    play(run, SIDES, &Plan { lists: 120, calls: 1_000, begin: a_closed_port }, |_| HARDLY_ANY_TRANSMITS)?;
    never_met_from_opening(run)?;
    run.demand(&[(Seen::PurgedFrame, 20_000), (Seen::SentFromPrior, 500), (Seen::Ticked, 10_000)])
}

/// Lists that begin on an open port of any content: queues that wrap, full ones that refuse, best effort that drains and fills.
fn ring_starts_anywhere(run: &mut Run) -> Result<(), String> {
    play(run, SIDES, &Plan { lists: 500, calls: 300, begin: an_open_port }, few_ticks)?;
    run.demand(&[(Seen::Refused(QUEUE_FULL), 1_500), (Seen::JoinedWrapped, 800), (Seen::SentFromBestEffort, 800)])?;
    run.demand(&[(Seen::SentFromPrior, 3_000), (Seen::SentFromCurrent, 3_000), (Seen::SentNothing, 500)])?;
    run.demand(&[(Seen::BestEffortWrapped, 100), (Seen::BestEffortFullAndAbove, 50)])?;
    run.demand(&[QUEUE_FULL, BEST_EFFORT_FULL].map(|refusal| (Seen::FrameRefused(refusal), 200)))
}

/// Best effort of 256 frames and one more, from any start: a limit that K raises far above them, or that reservations lower.
fn long_best_effort_queues(run: &mut Run) -> Result<(), String> {
    let profile = |random: &mut Random| {
        let (transmit, reserve) = (random.pick(&[1, 20, 40]), random.pick(&[0, 0, 2]));
        let weights = Weights { reserve, arrive: 2, tick: 2, transmit, best_effort: 100, frame: 10, ..NEVER };
        Profile { weights, links: FULL_LINK..=FULL_LINK, charges: Charges::Least, edges: 2, ..ORDINARY }
    };
    play(run, SIDES, &Plan { lists: 80, calls: 700, begin: a_closed_port }, profile)?;
    never_met_from_opening(run)?;
    play(run, SIDES, &Plan { lists: 120, calls: 400, begin: an_open_port }, profile)?;
    run.demand(&[(Seen::BestEffortFilled, 100), (Seen::BestEffortWrapped, 1_500), (Seen::SentFromBestEffort, 2_000)])?;
    run.demand(&[(Seen::Refused(BEST_EFFORT_FULL), 2_000)])
}

/// For each K, frames until W + a is one above K × (L − R), then just that, then none more.
fn best_effort_to_the_limit_of_each_delay(run: &mut Run) -> Result<(), String> {
    for _ in 0..run.scaled(20) {
        for delay in 1..=16 {
            to_the_limit(run, delay)?;
        }
    }
    run.demand(&[(Seen::BestEffortOneAbove, 320), (Seen::BestEffortAtLimit, 320), (Seen::Refused(BEST_EFFORT_EXCEEDED), 640)])
}

/// One list to the limit of a K, with any L and any one reservation or none.
fn to_the_limit(run: &mut Run, delay: u32) -> Result<(), String> {
    let mut random = run.next_list();
    let begin = a_closed_port(&mut random);
    let mut compared = Compared::guarded(SIDES, run, &begin.record, &begin.memory);
    let link = random.between(LINKS);
    let permitted = random.between(LEAST_PERMITTED..=link - LARGEST_CHARGE);
    let reserved = if random.chance(80) { permitted } else { 0 };
    compared.expect(run, &Call::Open { link, delay }, |reply| reply.refusal == 0, "a granted open")?;
    if reserved > 0 {
        compared.expect(run, &Call::Reserve { stream: 63, permitted }, |reply| reply.refusal == 0, "a granted reserve")?;
    }
    let (limit, mut waits) = (delay * (link - reserved), 0);
    let mut offer = |run: &mut Run, charge: u32, reply: Reply| {
        compared.expect(run, &Call::BestEffort { charge, tag: charge }, |got| *got == reply, &format!("{reply}, with limit {limit}"))
    };
    while limit - waits > LARGEST_CHARGE - 1 {
        let charge = LARGEST_CHARGE.min(limit - waits - LEAST_CHARGE);
        waits += charge;
        offer(run, charge, Reply::granted(waits, 0))?;
    }
    offer(run, limit - waits + 1, Reply::refused(BEST_EFFORT_EXCEEDED))?;
    offer(run, limit - waits, Reply::granted(limit, 0))?;
    offer(run, LEAST_CHARGE, Reply::refused(BEST_EFFORT_EXCEEDED))
}

/// Best effort that presses its limit while transmits lower W.
fn best_effort_between_transmits(run: &mut Run) -> Result<(), String> {
    let weights = Weights { reserve: 1, arrive: 5, tick: 5, transmit: 60, best_effort: 90, bind: 1, frame: 20, ..NEVER };
    let profile = Profile { weights, streams: 8, permitted: Permitted::UpTo(1_000), ..ORDINARY };
    play(run, SIDES, &Plan { lists: 150, calls: 600, begin: a_closed_port }, |_| profile.clone())?;
    never_met_from_opening(run)?;
    run.demand(&[(Seen::SentFromBestEffort, 15_000), (Seen::BestEffort, 15_000), (Seen::Refused(BEST_EFFORT_EXCEEDED), 3_000)])?;
    run.demand(&[(Seen::BestEffortAtLimit, 500), (Seen::BestEffortOneAbove, 200), (Seen::EnvelopeBestEffort, 1_000)])
}

/// Reservations that are granted while frames wait in best effort, so that its limit falls, also below W.
fn reservations_after_best_effort(run: &mut Run) -> Result<(), String> {
    let weights = Weights { reserve: 10, arrive: 10, tick: 5, transmit: 15, best_effort: 60, bind: 2, frame: 10, withdraw: 1, ..NEVER };
    let profile = Profile { weights, ..ORDINARY };
    play(run, SIDES, &Plan { lists: 400, calls: 150, begin: a_closed_port }, |_| profile.clone())?;
    never_met_from_opening(run)?;
    run.demand(&[(Seen::LimitBelowWaits, 150), (Seen::SentFromBestEffort, 1_500), (Seen::Refused(BEST_EFFORT_EXCEEDED), 4_000)])
}

/// The steps of a port that is used.
const USED: Weights = Weights { reserve: 12, arrive: 60, tick: 8, transmit: 15, best_effort: 10, bind: 6, frame: 30, ..NEVER };

/// Ports that are opened though open, and used records that the host closes and opens again.
fn opened_again(run: &mut Run) -> Result<(), String> {
    let weights = Weights { open: 6, withdraw: 4, close: 2, ..USED };
    let profile = Profile { weights, streams: 24, edges: 5, ..ORDINARY };
    play(run, SIDES, &Plan { lists: 250, calls: 600, begin: an_open_port }, |_| profile.clone())?;
    run.demand(&[(Seen::Opened, 1_500), (Seen::Closed, 1_500), (Seen::Bound, 1_000), (Seen::FrameArrived, 1_500)])?;
    run.demand(&[(Seen::Refused(OPEN_ALREADY), 4_000), (Seen::Refused(PORT_CLOSED), 800)])
}

/// Every argument outside its range, at its ends and where fewer bits would hide it.
fn arguments_out_of_range(run: &mut Run) -> Result<(), String> {
    play(run, SIDES, &Plan { lists: 200, calls: 700, begin: a_closed_port }, |_| WRONG_ARGUMENTS)?;
    never_met_from_opening(run)?;
    run.demand(&OF_PLANNER.map(|refusal| (Seen::Refused(refusal), 400)))?;
    run.demand(&OF_SENDER.map(|refusal| (Seen::Refused(refusal), 500)))?;
    run.demand(&[(Seen::Refused(VID_OUTSIDE), 400), (Seen::Refused(BOUND_ALREADY), 30), (Seen::Refused(PAIR_BOUND_ALREADY), 200)])?;
    run.demand(&[(Seen::FrameRefused(FRAME_LENGTH), 2_000), (Seen::FrameRefused(PORT_CLOSED), 200)])?;
    run.demand(&[(Seen::Withdrawn, 300), (Seen::Refused(DRAINING), 1_000)])?;
    run.demand(&[(Seen::ReadRefused(REGISTER_OFFSET), 1_000), (Seen::WriteRefused(REGISTER_OFFSET), 1_000)])
}

/// Everything, with other weights in each list.
fn mixture(run: &mut Run) -> Result<(), String> {
    play(run, SIDES, &Plan { lists: 400, calls: 500, begin: any_port }, any_profile)?;
    run.demand(&at_each_place(Seen::JoinedAt, 1_000))?;
    run.demand(&at_each_place(Seen::ExactFitAt, 200))?;
    run.demand(&[(Seen::PurgedFrame, 5_000), (Seen::SentFromPrior, 2_000), (Seen::SentFromCurrent, 2_000), (Seen::SentNothing, 500)])?;
    run.demand(&[(Seen::Opened, 500), (Seen::Reserved, 1_500), (Seen::Ticked, 5_000), (Seen::Refused(DISCARD), 1_000)])?;
    run.demand(&[(Seen::BestEffort, 3_000), (Seen::SentFromBestEffort, 1_000), (Seen::Refused(BEST_EFFORT_EXCEEDED), 1_000)])?;
    run.demand(&[(Seen::Bound, 1_000), (Seen::FrameArrived, 2_000), (Seen::FrameBestEffort, 5_000)])?;
    run.demand(&[(Seen::Withdrawn, 800), (Seen::Freed, 600), (Seen::GrantedAgain, 60), (Seen::Refused(DRAINING), 2_000)])?;
    demand_registers(run, 60)
}

/// A demand for each of the three places.
pub fn at_each_place(seen: fn(u8) -> Seen, times: u64) -> [(Seen, u64); 3] {
    [CURRENT, NEXT, LAST].map(|place| (seen(place), times))
}

/// No list from an opening meets a full queue.
pub fn never_met_from_opening(run: &Run) -> Result<(), String> {
    run.demand_none(Seen::Refused(QUEUE_FULL))
}

/// A closed port: all zeros, or fit with any content.
pub fn a_closed_port(random: &mut Random) -> Octets {
    match random.chance(50) {
        true => Octets::zero(),
        false => Octets::fit(random, false),
    }
}

/// An open port of any content.
pub fn an_open_port(random: &mut Random) -> Octets {
    Octets::fit(random, true)
}

/// A port of any content, open or closed.
pub fn any_port(random: &mut Random) -> Octets {
    let open = random.chance(50);
    Octets::fit(random, open)
}

/// Plays the lists of a plan; one that begins on a closed port is opened first, and none leaves a record unfit.
pub fn play(run: &mut Run, sides: [Side; 2], plan: &Plan, profile: impl Fn(&mut Random) -> Profile) -> Result<(), String> {
    for _ in 0..run.scaled(plan.lists) {
        let mut random = run.next_list();
        let begin = (plan.begin)(&mut random);
        let profile = profile(&mut random);
        let mut compared = Compared::guarded(sides, run, &begin.record, &begin.memory);
        if !begin.is_open() {
            let open = profile.open(&mut random, false);
            compared.expect(run, &open, |reply| reply.refusal == 0, "a granted open")?;
        }
        play_list(run, &mut random, &mut compared, &profile, plan.calls)?;
    }
    run.demand_none(Seen::Refused(MEMORY_SHORT))?;
    run.demand_none(Seen::Refused(RECORD_UNFIT))
}

/// Plays the steps of one list.
fn play_list(run: &mut Run, random: &mut Random, compared: &mut Compared, profile: &Profile, calls: usize) -> Result<(), String> {
    for _ in 0..calls {
        match profile.step(random, compared.record()) {
            Step::Call(call) => {
                compared.call(run, &call)?;
            }
            Step::HostWrites { at, octet } => {
                compared.host_writes(at, octet);
                run.coverage.count(Seen::Closed);
            }
        }
    }
    Ok(())
}
