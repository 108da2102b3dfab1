//! The kind `frames`, Bind: what is bound and to which pair, and each of its refusals in their order, with the replies that document 01 gives.

use crate::call::{Call, Reply};
use crate::comparing::calls::OVER_TWO_OCTETS;
use crate::comparing::coverage::Seen;
use crate::comparing::fit::Octets;
use crate::comparing::frames::Header;
use crate::comparing::sides::Side;
use crate::comparing::stated::{refused_before_all_else, Pair, Stated, BOTH_SORTS};
use crate::comparing::test::{Kind, Run, Test};
use crate::model::refusal::*;

/// The tests of this file.
pub const TESTS: [Test; 5] = [
    test("bind_checks_in_order", bind_checks_in_order),
    test("bind_vids_at_the_ends", bind_vids_at_the_ends),
    test("bindings_one_octet_apart", bindings_one_octet_apart),
    test("bindings_vids_apart", bindings_vids_apart),
    test("open_drops_bindings", open_drops_bindings),
];

/// A test of this kind.
pub const fn test(name: &'static str, body: fn(&mut Run) -> Result<(), String>) -> Test {
    Test { kind: Kind::Frames, name, body }
}

/// Three addresses, of which the last is bound nowhere.
const ONE: [u8; 6] = [0x02, 0x00, 0x5e, 0x10, 0x20, 0x30];
const OTHER: [u8; 6] = [0x30, 0x20, 0x10, 0x5e, 0x00, 0x02];
const UNBOUND: [u8; 6] = [0x02, 0x00, 0x5e, 0x10, 0x20, 0x31];

/// Streams 5 and 6, bound to (ONE, 100) and (OTHER, 100); stream 7, reserved alone; and stream 8, not reserved.
const STREAMS: [(u8, u32); 3] = [(5, 200), (6, 200), (7, 200)];

/// Binds with what each is refused with first on an open port: where two refusals hold, the first of "18 19 1 5 12 9 10 11".
const BINDS: [(u8, Pair, u8); 17] = [
    (64, (UNBOUND, 100), STREAM_ABOVE),
    (64, (UNBOUND, 0), STREAM_ABOVE),
    (255, (ONE, 100), STREAM_ABOVE),
    (8, (UNBOUND, 100), NOT_RESERVED),
    (8, (UNBOUND, 0), NOT_RESERVED),
    (8, (ONE, 100), NOT_RESERVED),
    (7, (UNBOUND, 4_095), VID_OUTSIDE),
    (5, (UNBOUND, 0), VID_OUTSIDE),
    (5, (ONE, OVER_TWO_OCTETS + 100), VID_OUTSIDE),
    (7, (ONE, OVER_TWO_OCTETS + 100), VID_OUTSIDE),
    (5, (UNBOUND, 100), BOUND_ALREADY),
    (5, (ONE, 100), BOUND_ALREADY),
    (5, (OTHER, 100), BOUND_ALREADY),
    (7, (ONE, 100), PAIR_BOUND_ALREADY),
    (7, (OTHER, 100), PAIR_BOUND_ALREADY),
    (7, (ONE, 101), 0),
    (7, (UNBOUND, 100), 0),
];

/// Every Bind of the table on an open port, and on ports where 18, 19 or 1 come before all that.
fn bind_checks_in_order(run: &mut Run) -> Result<(), String> {
    for sides in BOTH_SORTS {
        let bound = two_bound(run, sides)?;
        for (octets, before) in refused_before_all_else(&bound) {
            let mut list = Stated::on(run, sides, &octets);
            for (stream, pair, own) in BINDS {
                list.lend_again(&octets);
                list.bind(stream, pair, Reply::refused(before.unwrap_or(own)))?;
            }
        }
    }
    let met = [MEMORY_SHORT, RECORD_UNFIT, PORT_CLOSED, STREAM_ABOVE, NOT_RESERVED, VID_OUTSIDE, BOUND_ALREADY, PAIR_BOUND_ALREADY];
    met.iter().try_for_each(|&refusal| demand_met(run, Seen::Refused(refusal)))?;
    demand_met(run, Seen::Bound)
}

/// An open port with two streams bound, one reserved alone.
fn two_bound(run: &mut Run, sides: [Side; 2]) -> Result<Octets, String> {
    let mut list = Stated::opened(run, sides, 2_620, 1, &STREAMS)?;
    list.bound(5, (ONE, 100))?;
    list.bound(6, (OTHER, 100))?;
    Ok(list.octets())
}

/// Fails unless a thing was met, whatever the size of the run.
pub fn demand_met(run: &Run, seen: Seen) -> Result<(), String> {
    run.demand(&[(seen, 1)])
}

/// VIDs at the ends of their range are bound and found, and those outside it are refused, also where fewer bits would hide that.
fn bind_vids_at_the_ends(run: &mut Run) -> Result<(), String> {
    for sides in BOTH_SORTS {
        let mut list = Stated::opened(run, sides, 23_524, 1, &[(5, 168), (63, 168)])?;
        for vid in [0, 4_095, 4_096, 4_097, 8_191, OVER_TWO_OCTETS - 1, OVER_TWO_OCTETS, OVER_TWO_OCTETS + 1, u32::MAX] {
            list.bind(5, (ONE, vid), Reply::refused(VID_OUTSIDE))?;
        }
        for vid in [0, 1, 4_094, 4_095] {
            list.frame_of(&Header::tagged(ONE, vid), None)?;
        }
        list.bound(5, (ONE, 1))?;
        list.bound(63, (ONE, 4_094))?;
        for (vid, stream) in [(0, None), (1, Some(5)), (2, None), (4_093, None), (4_094, Some(63)), (4_095, None)] {
            list.frame_of(&Header::tagged(ONE, vid), stream)?;
        }
    }
    run.demand(&[(Seen::FrameArrived, 4), (Seen::Bound, 4), (Seen::Refused(VID_OUTSIDE), 18)])
}

/// 64 bindings whose addresses differ in one octet, each of the six in turn: each is found by its own frame, and none by any other.
fn bindings_one_octet_apart(run: &mut Run) -> Result<(), String> {
    for sides in BOTH_SORTS {
        for place in 0..6 {
            let mut list = all_reserved(run, sides)?;
            let values = list.random.shuffled(256);
            let pair = |value: usize| {
                let mut address = ONE;
                address[place] = value as u8;
                (address, 100)
            };
            let pairs: Vec<Pair> = values.into_iter().map(pair).collect();
            each_found_by_its_own(&mut list, &pairs)?;
        }
    }
    demand_all_bound(run, 12)
}

/// 64 bindings with one address, whose VIDs differ: in their low octet, in their high one, or anyhow.
fn bindings_vids_apart(run: &mut Run) -> Result<(), String> {
    for sides in BOTH_SORTS {
        for (first, step, count) in [(0x0600, 1, 256), (0x0007, 0x0010, 256), (0x0001, 1, 256), (0x0eff, 1, 256)] {
            let mut list = all_reserved(run, sides)?;
            let vids = list.random.shuffled(count).into_iter().map(|number| first + step * number as u32);
            let pairs: Vec<Pair> = vids.filter(|vid| (1..=4_094).contains(vid)).map(|vid| (ONE, vid)).collect();
            each_found_by_its_own(&mut list, &pairs)?;
        }
    }
    demand_all_bound(run, 8)
}

/// An open port with all streams reserved, each for two frames of 60 octets.
fn all_reserved<'a, 'r>(run: &'a mut Run<'r>, sides: [Side; 2]) -> Result<Stated<'a, 'r>, String> {
    let streams: Vec<(u8, u32)> = (0..64).map(|stream| (stream, 168)).collect();
    Stated::opened(run, sides, 23_524, 16, &streams)
}

/// Binds all streams, in any order, to the first pairs; then a frame of each pair goes to its stream, or to best effort where it is bound nowhere.
fn each_found_by_its_own(list: &mut Stated, pairs: &[Pair]) -> Result<(), String> {
    let streams = list.random.shuffled(64);
    for (&stream, &pair) in streams.iter().zip(pairs) {
        list.bound(stream as u8, pair)?;
    }
    for (number, &(address, vid)) in pairs.iter().enumerate() {
        list.frame_of(&Header::tagged(address, vid as u16), streams.get(number).map(|&stream| stream as u8))?;
    }
    Ok(())
}

/// So many times all streams were bound, and each was found.
fn demand_all_bound(run: &Run, times: u64) -> Result<(), String> {
    demand_met(run, Seen::FrameBestEffort)?;
    match [Seen::AllBound, Seen::Bound, Seen::FrameArrived].map(|seen| run.coverage.times(seen)) == [times, 64 * times, 64 * times] {
        true => Ok(()),
        false => Err(format!("not {times} times were all streams bound and found")),
    }
}

/// "Open(L, K) empties all queues, drops all reservations and bindings": frames of the old pairs are best effort, and the pairs are free.
fn open_drops_bindings(run: &mut Run) -> Result<(), String> {
    for sides in BOTH_SORTS {
        let mut list = all_reserved(run, sides)?;
        for stream in 0..64 {
            list.bound(stream, (ONE, 100 + u32::from(stream)))?;
        }
        list.close();
        list.call(Call::Open { link: 23_524, delay: 1 }, Reply::granted(21_504, 0))?;
        for stream in 0..64 {
            list.bind(stream, (ONE, 100 + u32::from(stream)), Reply::refused(NOT_RESERVED))?;
            list.frame_of(&Header::tagged(ONE, 100 + u16::from(stream)), None)?;
        }
        list.call(Call::Reserve { stream: 9, permitted: 168 }, Reply::granted(21_336, 0))?;
        list.bound(9, (ONE, 100))?;
        list.frame_of(&Header::tagged(ONE, 100), Some(9))?;
        list.frame_of(&Header::tagged(ONE, 109), None)?;
    }
    run.demand(&[(Seen::AllBound, 2), (Seen::FrameArrived, 2), (Seen::FrameBestEffort, 130)])
}
