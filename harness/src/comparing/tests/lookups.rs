//! The kind `lookups`: the proved lookup against the outside program's, with the numbers that document 02, "Compare the VLAN id first", and its
//! reading give, in lists with Binds and Withdraws, on records of any content and on ports of any length; and Frame and Bind against the lookup.

use crate::call::{Call, Reply};
use crate::comparing::calls::{Permitted, Profile, Weights, NEVER, ORDINARY};
use crate::comparing::compared::{Compared, Step};
use crate::comparing::coverage::Seen;
use crate::comparing::fenced::EDGES;
use crate::comparing::fit::{is_bound, no_mark, Octets};
use crate::comparing::frames::Header;
use crate::comparing::lookups::{lookups_near, Looked, NONE};
use crate::comparing::random::Random;
use crate::comparing::shapes::{bindings_of_every_sort, with_lengths, Shape, SHAPES};
use crate::comparing::sides::{Play, Side};
use crate::comparing::stated::{Pair, Stated, BOTH_SORTS};
use crate::comparing::test::{Kind, Run, Test};
use crate::comparing::tests::lists::a_closed_port;
use crate::layout::{self, entry, is_draining, is_reserved};
use crate::model::octets::{PORT_OCTETS, RECORD_OCTETS};
use crate::model::port::STREAMS;
use crate::model::refusal::{DRAINING, PAIR_BOUND_ALREADY, RECORD_UNFIT};

/// The tests of this kind.
pub const TESTS: [Test; 8] = [
    test("lookup_numbers_as_stated", lookup_numbers_as_stated),
    test("lookups_one_octet_apart", lookups_one_octet_apart),
    test("lookups_in_lists", lookups_in_lists),
    test("lookups_on_every_shape", lookups_on_every_shape),
    test("lookups_of_bindings_of_any_mark", lookups_of_bindings_of_any_mark),
    test("lookups_at_all_lengths", lookups_at_all_lengths),
    test("lookups_write_nothing", lookups_write_nothing),
    test("frames_and_binds_by_the_lookup", frames_and_binds_by_the_lookup),
];

/// A test of this kind.
const fn test(name: &'static str, body: fn(&mut Run) -> Result<(), String>) -> Test {
    Test { kind: Kind::Lookups, name, body }
}

/// The pairs of the reading: "Two bindings ending 66 and 67, same VID".
const ENDING_66: Pair = ([0x02, 0x00, 0x5e, 0x10, 0x20, 66], 100);
const ENDING_67: Pair = ([0x02, 0x00, 0x5e, 0x10, 0x20, 67], 100);

/// What is asked of a kind of lookup, so many times at full size.
fn looked<const N: usize>(looked: [Looked; N], times: u64) -> [(Seen, u64); N] {
    looked.map(|looked| (Seen::Lookup(looked), times))
}

/// Each of the six octets, in which addresses differ first from the last octet back.
fn past_each_octet(times: u64) -> [(Seen, u64); 6] {
    looked([0, 1, 2, 3, 4, 5].map(Looked::PastAddressOctet), times)
}

impl Stated<'_, '_> {
    /// A lookup of a pair, which finds a stream or none and compares so many octets.
    fn looked_up(&mut self, (address, vid): Pair, stream: u32, compared: u32) -> Result<(), String> {
        self.call(Call::Lookup { address, vid }, Reply::granted(stream, compared))
    }
}

/// The reading's two bindings: 7 for the second, 6 for the first, 1 of each for a third address, none for another VID; while the first one's stream
/// drains the same, and from its fourth tick on what the second alone gives.
fn lookup_numbers_as_stated(run: &mut Run) -> Result<(), String> {
    let third = (ENDING_66.0.map(|octet| octet.wrapping_add(9)), 100);
    for sides in BOTH_SORTS {
        let mut list = Stated::opened(run, sides, 2_620, 1, &[(5, 200), (6, 200)])?;
        list.looked_up(ENDING_67, NONE, 0)?;
        list.bound(5, ENDING_66)?;
        list.bound(6, ENDING_67)?;
        for ticks in 0..=4 {
            list.looked_up(ENDING_67, 6, 7)?;
            list.looked_up(ENDING_66, 5, 6)?;
            list.looked_up(third, NONE, 2)?;
            list.looked_up((ENDING_67.0, 101), NONE, 0)?;
            list.call(if ticks == 0 { Call::Withdraw { stream: 5 } } else { Call::Tick }, Reply::granted(0, 0))?;
        }
        list.looked_up(ENDING_67, 6, 6)?;
        list.looked_up(ENDING_66, NONE, 1)?;
        list.looked_up(third, NONE, 1)?;
    }
    run.demand(&looked([Looked::FoundDraining, Looked::PastDraining], 8))
}

/// 64 bindings of one VID whose addresses differ in one octet, each of the six in turn: the lookup of stream s compares six octets of its own
/// binding, and of each before it those from the last back to the one that differs.
fn lookups_one_octet_apart(run: &mut Run) -> Result<(), String> {
    let streams: Vec<(u8, u32)> = (0..64).map(|stream| (stream, 168)).collect();
    for sides in BOTH_SORTS {
        for place in 0..6 {
            let mut list = Stated::opened(run, sides, 23_524, 16, &streams)?;
            let values = list.random.shuffled(256);
            let pair = |stream: usize| {
                let mut pair = ENDING_66;
                pair.0[place] = values[stream] as u8;
                pair
            };
            let each = 6 - place as u32;
            (0..64).try_for_each(|stream| list.bound(stream as u8, pair(stream)))?;
            (0..64).try_for_each(|stream| list.looked_up(pair(stream), stream as u32, each * stream as u32 + 6))?;
            (64..256).try_for_each(|number| list.looked_up(pair(number), NONE, each * 64))?;
        }
    }
    run.demand(&past_each_octet(2 * (64 * 63 / 2 + 192 * 64)))?;
    run.demand(&looked([Looked::Found], 12 * 64))
}

/// A profile of steps that bind and withdraw often, and tick often enough that streams are freed.
const BINDING_AND_WITHDRAWING: Profile = Profile {
    weights: Weights { open: 1, reserve: 40, arrive: 5, tick: 12, transmit: 5, bind: 40, frame: 10, withdraw: 8, close: 1, ..NEVER },
    permitted: Permitted::Parts,
    edges: 5,
    ..ORDINARY
};

/// In lists from an opening, after every few steps: lookups of bound pairs and of all that is near to one.
fn lookups_in_lists(run: &mut Run) -> Result<(), String> {
    for sides in BOTH_SORTS {
        for _ in 0..run.scaled(150) {
            let mut random = run.next_list();
            let begin = a_closed_port(&mut random);
            let compared = Compared::guarded(sides, run, &begin.record, &begin.memory);
            looked_up_between_steps(run, &mut random, compared)?;
        }
    }
    run.demand(&[(Seen::Bound, 6_000), (Seen::Withdrawn, 2_000), (Seen::FreedBound, 800)])?;
    run.demand(&looked([Looked::Found, Looked::NoneByVid, Looked::NoneByAddress, Looked::PastSameAddress], 5_000))?;
    run.demand(&looked([Looked::FoundDraining, Looked::PastDraining, Looked::VidAbove, Looked::OnClosed], 800))?;
    run.demand(&past_each_octet(4_000))
}

/// One such list.
fn looked_up_between_steps(run: &mut Run, random: &mut Random, mut compared: Compared) -> Result<(), String> {
    for number in 0..300 {
        match BINDING_AND_WITHDRAWING.step(random, compared.record()) {
            Step::Call(call) => compared.call(run, &call).map(drop)?,
            Step::HostWrites { at, octet } => compared.host_writes(at, octet),
        }
        if number % 10 == 9 {
            let near = lookups_near(random, compared.record());
            near.iter().try_for_each(|lookup| compared.call(run, lookup).map(drop))?;
        }
    }
    Ok(())
}

/// On records of every shape, fit or far from it, without a memory.
fn lookups_on_every_shape(run: &mut Run) -> Result<(), String> {
    for shape in SHAPES {
        on_records(run, shape, 1_000)?;
    }
    run.demand(&looked([Looked::Found, Looked::NoneByVid, Looked::NoneByAddress], 6_000))?;
    run.demand(&looked([Looked::FoundDraining, Looked::FoundUnreserved, Looked::FoundFirstOfSeveral], 1_000))?;
    run.demand(&looked([Looked::PastSameAddress, Looked::PastDraining, Looked::OnClosed, Looked::VidAbove], 2_000))?;
    run.demand(&past_each_octet(2_000))
}

/// Lookups near a binding on so many records of a shape, on the two pairs of sides.
fn on_records(run: &mut Run, shape: (&str, Shape), records: usize) -> Result<(), String> {
    for sides in BOTH_SORTS {
        for _ in 0..run.scaled(records) {
            let mut random = run.next_record(shape.0);
            let Octets { record, .. } = shape.1(&mut random);
            let mut compared = Compared::guarded(sides, run, &record, &[]);
            lookups_near(&mut random, &record).iter().try_for_each(|lookup| compared.call(run, lookup).map(drop))?;
        }
    }
    Ok(())
}

/// On records whose entries hold few pairs, many times each, with bound marks of any value, draining and reserved or not, open or closed.
fn lookups_of_bindings_of_any_mark(run: &mut Run) -> Result<(), String> {
    on_records(run, ("bindings of any mark", bindings_of_any_mark), 4_000)?;
    run.demand(&looked([Looked::PastOtherMark, Looked::FoundFirstOfSeveral, Looked::FoundUnreserved, Looked::FoundDraining], 1_000))?;
    run.demand(&looked([Looked::PastDraining, Looked::PastSameAddress, Looked::OnClosed, Looked::NoneByAddress], 4_000))?;
    run.demand(&past_each_octet(4_000))
}

/// A record with bindings of every sort, of which some have another mark, and any open mark, reserved marks and draining counts.
fn bindings_of_any_mark(random: &mut Random) -> Octets {
    let mut octets = bindings_of_every_sort(random);
    let (unmarked, draining) = (random.pick(&[10, 50, 90]), random.pick(&[0, 30, 90]));
    octets.record[layout::OPEN] = random.pick(&[0, 1, 2, 255]);
    for at in (0..STREAMS).map(entry) {
        if random.chance(unmarked) {
            octets.record[at + layout::BOUND] = no_mark(random);
        }
        if random.chance(draining) {
            octets.record[at + layout::RESERVED] = random.pick(&[0, 1, 1, 2]);
            octets.record[at + layout::DRAINING] = random.pick(&[1, 4, 5, 255]);
        }
    }
    octets
}

/// Lengths about that of a record and that of a port, and others.
fn lengths() -> Vec<usize> {
    let about = |length: usize| length - 16..=length + 16;
    [0, 1, 64, 80].into_iter().chain(about(RECORD_OCTETS)).chain(about(PORT_OCTETS)).chain([3_000]).collect()
}

/// A port that is too short is 19 and two zeros, and a longer one is looked up; between fences as between guards.
fn lookups_at_all_lengths(run: &mut Run) -> Result<(), String> {
    for (number, length) in lengths().repeat(run.scaled(30)).into_iter().enumerate() {
        let mut random = run.next_record(&format!("bindings of any mark, length {length}"));
        let octets = bindings_of_any_mark(&mut random);
        let lookups = lookups_near(&mut random, &octets.record);
        let Octets { record, .. } = with_lengths(&octets, &mut random, length, 0);
        let edges = [(); 3].map(|()| random.pick(&EDGES));
        let mut compared = match number % 3 {
            0 => Compared::fenced(Side::Exports, run, &record, &[], edges),
            sort => Compared::guarded(BOTH_SORTS[sort - 1], run, &record, &[]),
        };
        let refused = |reply: &Reply| (reply.refusal == RECORD_UNFIT) == (length < PORT_OCTETS);
        lookups.iter().try_for_each(|lookup| compared.expect(run, lookup, refused, "19 on a port that is too short, and nowhere else"))?;
    }
    run.demand(&looked([Looked::Refused, Looked::NoneByVid, Looked::NoneByAddress], 1_500))?;
    run.demand(&looked([Looked::Found], 300))
}

/// The proved lookup leaves every octet of the port as it was, registers too, on records of every shape.
fn lookups_write_nothing(run: &mut Run) -> Result<(), String> {
    for shape in SHAPES {
        for _ in 0..run.scaled(200) {
            let mut random = run.next_record(shape.0);
            let octets = shape.1(&mut random);
            let mut compared = Compared::guarded(BOTH_SORTS[0], run, &octets.record, &octets.memory);
            for lookup in lookups_near(&mut random, &octets.record) {
                compared.call(run, &lookup)?;
            }
            if compared.record() != octets.record || compared.memory() != octets.memory {
                return Err(format!("{}: lookups write an octet of the port or the memory", run.place));
            }
        }
    }
    run.demand(&looked([Looked::Found, Looked::NoneByVid, Looked::NoneByAddress], 500))
}

/// "Callers get the very stream they got before": a Frame does what the Arrive on the stream that the lookup finds does, or the Best effort where it
/// finds none; and a Bind of a stream that may be bound is 11 just where it finds one. The quick calls do so on records that are not fit, too.
fn frames_and_binds_by_the_lookup(run: &mut Run) -> Result<(), String> {
    let cases = [(Side::Exports, open_fit as Shape), (Side::Quick, open_fit), (Side::Quick, bindings_of_every_sort)];
    for (side, shape) in cases {
        for _ in 0..run.scaled(4_000) {
            let mut random = run.next_record(&format!("frames and binds by the lookup, {side}"));
            let octets = shape(&mut random);
            by_the_lookup(run, &mut random, run.sides.play(side), &octets)?;
        }
    }
    run.demand(&[(Seen::FrameArrived, 2_000), (Seen::FrameBestEffort, 20_000), (Seen::Bound, 10_000)])?;
    run.demand(&[(Seen::Refused(PAIR_BOUND_ALREADY), 1_000), (Seen::FrameRefused(DRAINING), 500)])
}

/// An open record that is fit.
fn open_fit(random: &mut Random) -> Octets {
    Octets::fit(random, true)
}

/// Frames and Binds of pairs near a binding of one record.
fn by_the_lookup(run: &mut Run, random: &mut Random, play: Play, octets: &Octets) -> Result<(), String> {
    let unbound = (0..STREAMS).rfind(|&stream| may_be_bound(&octets.record, stream));
    for lookup in lookups_near(random, &octets.record) {
        let Call::Lookup { address, vid } = lookup else { continue };
        let Ok(of_a_frame) = u16::try_from(vid) else { continue };
        let (found, _) = played(play, &lookup, octets);
        let tag = random.number();
        let becomes = match found.first {
            NONE => Call::BestEffort { charge: 84, tag },
            stream => Call::Arrive { stream: stream as u8, charge: 84, tag },
        };
        if of_a_frame < 4_096 {
            let frame = Header::tagged(address, of_a_frame).frame(random, 84, tag);
            same(run, play, octets, &frame, &becomes)?;
        }
        if let Some(stream) = unbound.filter(|_| (1..=4_094).contains(&vid)) {
            let bind = Call::Bind { stream: stream as u8, address, vid };
            let (reply, _) = played(play, &bind, octets);
            run.count_call(&bind, &reply, &octets.record, false);
            if (reply.refusal == PAIR_BOUND_ALREADY) != (found.first != NONE) {
                return Err(format!("{}: {lookup} replies {found}, and {bind} replies {reply}", run.place));
            }
        }
    }
    Ok(())
}

/// Whether a Bind of a stream is refused for its pair alone.
fn may_be_bound(record: &[u8], stream: usize) -> bool {
    is_reserved(record, stream) && !is_draining(record, stream) && !is_bound(record, stream)
}

/// A call on copies of a port and a memory: its reply, and both after it.
fn played(play: Play, call: &Call, octets: &Octets) -> (Reply, Octets) {
    let mut after = octets.clone();
    let reply = play(&call.given(), &mut after.record, &mut after.memory);
    (reply, after)
}

/// Two calls that must reply the same and leave the same octets.
fn same(run: &mut Run, play: Play, octets: &Octets, one: &Call, other: &Call) -> Result<(), String> {
    let (results, others) = (played(play, one, octets), played(play, other, octets));
    run.count_call(one, &results.0, &results.1.record, false);
    match results == others {
        true => Ok(()),
        false => Err(format!("{}: {one} replies {}, and {other} replies {}, or they leave other octets", run.place, results.0, others.0)),
    }
}
