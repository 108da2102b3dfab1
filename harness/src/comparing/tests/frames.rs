//! The kind `frames`, Frame: which frames are an arrival on which stream, their lengths and charges, and their refusals, with the replies that
//! document 01 gives; and lists of frames among all other calls.

use crate::call::{Call, Reply};
use crate::comparing::calls::{Profile, Weights, NEVER, ORDINARY};
use crate::comparing::coverage::Seen;
use crate::comparing::fit::{binding, Octets};
use crate::comparing::frames::{Header, PRIORITIES, TAGGED};
use crate::comparing::profiles::few_ticks;
use crate::comparing::sides::Side;
use crate::comparing::stated::{refused_before_all_else, Stated, BOTH_SORTS};
use crate::comparing::test::{Run, Test};
use crate::comparing::tests::bindings::{demand_met, test};
use crate::comparing::tests::lists::{a_closed_port, an_open_port, never_met_from_opening, play, Plan};
use crate::layout;
use crate::model::refusal::*;

/// The tests of this file.
pub const TESTS: [Test; 11] = [
    test("sample_by_frames", sample_by_frames),
    test("frames_by_address_and_vid", frames_by_address_and_vid),
    test("frames_of_every_priority", frames_of_every_priority),
    test("frames_tagged_nearly", frames_tagged_nearly),
    test("frames_tagged_twice", frames_tagged_twice),
    test("frames_of_every_length", frames_of_every_length),
    test("frame_checks_in_order", frame_checks_in_order),
    test("frames_refused_as_what_they_become", frames_refused_as_what_they_become),
    test("frames_of_the_first_that_is_bound", frames_of_the_first_that_is_bound),
    test("frames_in_lists", frames_in_lists),
    test("frames_in_lists_from_any_port", frames_in_lists_from_any_port),
];

/// An address that is bound, and one that is not.
const BOUND: [u8; 6] = [0x01, 0x80, 0xc2, 0x81, 0x00, 0x0e];
const UNBOUND: [u8; 6] = [0x0e, 0x00, 0x81, 0xc2, 0x80, 0x01];
/// The VID that is bound, both its octets in use.
const VID: u16 = 0x0a5b;
/// The header of a frame that is bound.
const HEADER: Header = Header { destination: BOUND, protocol: TAGGED, control: VID };

/// A list after Open with stream 5 reserved for two frames of 60 octets, and bound.
fn one_bound<'a, 'r>(run: &'a mut Run<'r>, sides: [Side; 2]) -> Result<Stated<'a, 'r>, String> {
    let mut list = Stated::opened(run, sides, 2_620, 1, &[(5, 168), (6, 168)])?;
    list.bound(5, (BOUND, u32::from(VID)))?;
    Ok(list)
}

/// The document's sample and its case C12, with frames of 24 octets less than the charges there.
fn sample_by_frames(run: &mut Run) -> Result<(), String> {
    let untagged = Header { protocol: [0x08, 0x00], ..HEADER };
    for sides in BOTH_SORTS {
        let mut list = Stated::opened(run, sides, 2_620, 1, &[(5, 200)])?;
        list.bound(5, (BOUND, u32::from(VID)))?;
        list.frame(&HEADER, 96, 7, Reply::granted(1, 80))?;
        list.frame(&HEADER, 76, 8, Reply::granted(2, 100))?;
        list.call(Call::Transmit, Reply::granted(5, 7))?;
        list.call(Call::Transmit, Reply::granted(254, 0))?;
        list.call(Call::Tick, Reply::granted(0, 0))?;
        list.call(Call::Transmit, Reply::granted(5, 8))?;
        list.frame(&untagged, 1_996, 9, Reply::granted(2_020, 0))?;
        list.frame(&untagged, 376, 10, Reply::granted(2_420, 0))?;
        list.frame(&untagged, 60, 11, Reply::refused(BEST_EFFORT_EXCEEDED))?;
        list.call(Call::Transmit, Reply::granted(255, 9))?;
    }
    run.demand(&[(Seen::FrameArrived, 4), (Seen::FrameBestEffort, 4), (Seen::FrameRefused(BEST_EFFORT_EXCEEDED), 2)])
}

/// A frame is the stream's where address and VID are both bound to it; one of the two is not enough, and the source address is none of them.
fn frames_by_address_and_vid(run: &mut Run) -> Result<(), String> {
    for sides in BOTH_SORTS {
        let mut list = one_bound(run, sides)?;
        list.bound(6, (UNBOUND, 1))?;
        list.frame_of(&HEADER, Some(5))?;
        list.frame_of(&Header { protocol: [0x08, 0x00], ..HEADER }, None)?;
        for (destination, vid) in [(BOUND, VID ^ 1), (BOUND, VID.swap_bytes() % 4_096), (BOUND, 1), (BOUND, 0), (UNBOUND, VID)] {
            list.frame_of(&Header::tagged(destination, vid), None)?;
        }
        list.frame_of(&Header::tagged(UNBOUND, 1), Some(6))?;
        for (source, header, stream) in [(BOUND, Header::tagged([0; 6], VID), None), (UNBOUND, HEADER, Some(5)), (BOUND, HEADER, Some(5))] {
            let mut octets = header.octets(&mut list.random, 60).to_vec();
            octets[6..12].copy_from_slice(&source);
            list.octets_of(octets, stream)?;
        }
    }
    run.demand(&[(Seen::FrameArrived, 8), (Seen::FrameBestEffort, 14)])
}

/// "the VID is the low 12 bits of octets 14 and 15", whatever the other four are.
fn frames_of_every_priority(run: &mut Run) -> Result<(), String> {
    for sides in BOTH_SORTS {
        for vid in [1, VID, 0x0800, 4_094] {
            let mut list = Stated::opened(run, sides, 2_620, 1, &[(5, 168)])?;
            list.bound(5, (BOUND, u32::from(vid)))?;
            for priority in 0..PRIORITIES {
                for (low, stream) in [(vid, Some(5)), (0, None), (4_095, None), (vid ^ 0x0400, None)] {
                    list.frame_of(&Header::tagged(BOUND, priority << 12 | low), stream)?;
                }
            }
        }
    }
    run.demand(&[(Seen::FrameArrived, 128), (Seen::FrameBestEffort, 384)])
}

/// Octets 12 and 13 that differ from 81 00 in one bit, or are the same the other way round: such a frame is not tagged.
fn frames_tagged_nearly(run: &mut Run) -> Result<(), String> {
    let nearly = (0..16).map(|bit| (0x8100_u16 ^ 1 << bit).to_be_bytes());
    let others = [[0x00, 0x81], [0x88, 0xa8], [0x91, 0x00], [0x08, 0x00], [0, 0], [0xff, 0xff]];
    for sides in BOTH_SORTS {
        let mut list = one_bound(run, sides)?;
        for protocol in nearly.clone().chain(others) {
            list.frame_of(&Header { protocol, ..HEADER }, None)?;
            list.frame_of(&HEADER, Some(5))?;
        }
    }
    run.demand(&[(Seen::FrameArrived, 44), (Seen::FrameBestEffort, 44)])
}

/// A frame with two tags goes by the outer one, where that is 81 00; one with 88 A8 outside is not tagged.
fn frames_tagged_twice(run: &mut Run) -> Result<(), String> {
    let bound = VID.to_be_bytes();
    for sides in BOTH_SORTS {
        let mut list = one_bound(run, sides)?;
        for (outer, inner, stream) in [
            ([0x81, 0x00, bound[0], bound[1]], [0x81, 0x00, 0x00, 0x01], Some(5)),
            ([0x81, 0x00, 0x00, 0x01], [0x81, 0x00, bound[0], bound[1]], None),
            ([0x88, 0xa8, 0x00, 0x01], [0x81, 0x00, bound[0], bound[1]], None),
            ([0x88, 0xa8, bound[0], bound[1]], [0x81, 0x00, bound[0], bound[1]], None),
            ([0x81, 0x00, bound[0], bound[1]], [0x88, 0xa8, 0x00, 0x01], Some(5)),
        ] {
            let mut octets = HEADER.octets(&mut list.random, 60).to_vec();
            octets[12..20].copy_from_slice(&[outer, inner].concat());
            list.octets_of(octets, stream)?;
        }
    }
    run.demand(&[(Seen::FrameArrived, 4), (Seen::FrameBestEffort, 6)])
}

/// Every length from 0 to 2,100: 60 to 1,996 octets are taken, at a charge of 24 more, and all others are 17.
fn frames_of_every_length(run: &mut Run) -> Result<(), String> {
    for sides in BOTH_SORTS {
        let mut list = Stated::opened(run, sides, 23_524, 16, &[(5, 3_000)])?;
        list.bound(5, (BOUND, u32::from(VID)))?;
        let before = list.octets();
        for length in (0..=2_100).chain([65_535, 65_536, 65_536 + 60]) {
            let (charge, taken) = (length as u32 + 24, (60..=1_996).contains(&length));
            let of = |reply: Reply| if taken { reply } else { Reply::refused(FRAME_LENGTH) };
            list.lend_again(&before);
            list.frame(&HEADER, length, 1, of(Reply::granted(1, 3_000_u32.saturating_sub(charge))))?;
            list.frame(&Header { control: 1, ..HEADER }, length, 2, of(Reply::granted(charge, 0)))?;
        }
    }
    run.demand(&[(Seen::FrameArrived, 3_874), (Seen::FrameBestEffort, 3_874), (Seen::FrameRefused(FRAME_LENGTH), 668)])
}

/// "18 19 1 17, then 14/20 or 15 16": lengths outside the range, on ports where what the frame becomes would be refused too.
fn frame_checks_in_order(run: &mut Run) -> Result<(), String> {
    for sides in BOTH_SORTS {
        let full = nothing_is_accepted(run, sides)?;
        for (octets, before) in refused_before_all_else(&full) {
            let mut list = Stated::on(run, sides, &octets);
            for (length, of_bound, of_others) in
                [(0, 17, 17), (59, 17, 17), (60, 14, 16), (1_519, 14, 16), (1_996, 14, 16), (1_997, 17, 17)]
            {
                list.frame(&HEADER, length, 1, Reply::refused(before.unwrap_or(of_bound)))?;
                list.frame(&Header { control: 1, ..HEADER }, length, 1, Reply::refused(before.unwrap_or(of_others)))?;
            }
        }
    }
    let met = [MEMORY_SHORT, RECORD_UNFIT, PORT_CLOSED, FRAME_LENGTH, DISCARD, BEST_EFFORT_EXCEEDED];
    met.iter().try_for_each(|&refusal| demand_met(run, Seen::FrameRefused(refusal)))
}

/// A port whose only stream has nothing left at last, and whose best effort is at its limit.
fn nothing_is_accepted(run: &mut Run, sides: [Side; 2]) -> Result<Octets, String> {
    let mut list = Stated::opened(run, sides, 2_620, 1, &[(5, 200)])?;
    list.bound(5, (BOUND, u32::from(VID)))?;
    list.frame(&HEADER, 177, 1, Reply::refused(DISCARD))?;
    list.frame(&Header { control: 1, ..HEADER }, 1_996, 2, Reply::granted(2_020, 0))?;
    list.frame(&Header { control: 1, ..HEADER }, 376, 3, Reply::granted(2_420, 0))?;
    Ok(list.octets())
}

/// A Frame is refused as what it becomes: 14 as in C8 and C10, 16 as in C12, 15 at 256 frames, and 20 on a record that no list from an opening has.
fn frames_refused_as_what_they_become(run: &mut Run) -> Result<(), String> {
    for sides in BOTH_SORTS {
        let mut list = Stated::opened(run, sides, 23_524, 16, &[(5, 200)])?;
        list.bound(5, (BOUND, u32::from(VID)))?;
        for (place, left) in [(1, 200), (2, 200), (3, 0)] {
            list.frame(&HEADER, 176, place, Reply::granted(place, left))?;
        }
        list.frame(&HEADER, 60, 4, Reply::refused(DISCARD))?;
        list.call(Call::Tick, Reply::granted(0, 0))?;
        list.frame(&HEADER, 60, 5, Reply::granted(3, 116))?;
        for waiting in 1..=256 {
            list.frame(&Header { control: 0, ..HEADER }, 60, waiting, Reply::granted(84 * waiting, 0))?;
        }
        list.frame(&Header { control: 0, ..HEADER }, 1_996, 257, Reply::refused(BEST_EFFORT_FULL))?;
        let mut full = list.octets();
        let queue = (usize::from(full.record[layout::PRIOR]) + 3) % 4;
        full.put_queue(&mut list.random, queue, 200, 256);
        list.lend_again(&full);
        list.frame(&HEADER, 60, 6, Reply::refused(QUEUE_FULL))?;
    }
    [DISCARD, BEST_EFFORT_FULL, QUEUE_FULL].iter().try_for_each(|&refusal| demand_met(run, Seen::FrameRefused(refusal)))
}

/// On a record that is not fit the quick Frame takes the first stream whose mark and pair are the frame's, and is 12 where that is not reserved;
/// the quick Bind is 12 before 10, and 9 before 11, which never hold together on one that is fit.
fn frames_of_the_first_that_is_bound(run: &mut Run) -> Result<(), String> {
    let sides = [Side::Quick, Side::InPlace];
    let mut list = Stated::opened(run, sides, 23_524, 1, &[(5, 168), (9, 168), (63, 168)])?;
    list.bound(9, (BOUND, u32::from(VID)))?;
    let mut octets = list.octets();
    let binding = binding(&octets.record, 9);
    for stream in [63, 5] {
        octets.put_binding(stream, &binding);
        list.lend_again(&octets);
        list.frame_of(&HEADER, Some(stream.min(9) as u8))?;
    }
    octets.record[layout::entry(5) + layout::BOUND] = 2;
    octets.put_binding(8, &binding);
    list.lend_again(&octets);
    list.frame(&HEADER, 60, 1, Reply::refused(NOT_RESERVED))?;
    list.bind(8, (UNBOUND, 1), Reply::refused(NOT_RESERVED))?;
    layout::put_two(&mut octets.record, layout::entry(63) + layout::VID, 4_095);
    list.lend_again(&octets);
    list.bind(5, (BOUND, 4_095), Reply::refused(VID_OUTSIDE))?;
    demand_met(run, Seen::FrameRefused(NOT_RESERVED))?;
    run.demand(&[(Seen::FrameArrived, 2)])
}

/// The steps of lists of frames.
const OF_FRAMES: Weights =
    Weights { reserve: 15, arrive: 10, tick: 8, transmit: 30, best_effort: 5, bind: 15, frame: 100, withdraw: 1, ..NEVER };

/// The profile of lists of frames: many Binds, and Frames more often than all else.
const FRAMES: Profile = Profile { weights: Weights { open: 1, close: 1, ..OF_FRAMES }, edges: 10, ..ORDINARY };

/// Lists from an opening, the calls beside the model and the quick calls beside the calls.
fn frames_in_lists(run: &mut Run) -> Result<(), String> {
    for sides in [[Side::Exports, Side::Model], [Side::Quick, Side::Exports]] {
        play(run, sides, &Plan { lists: 150, calls: 500, begin: a_closed_port }, |_| FRAMES)?;
    }
    never_met_from_opening(run)?;
    run.demand(&[(Seen::Bound, 2_000), (Seen::FrameArrived, 7_000), (Seen::FrameBestEffort, 5_000)])?;
    run.demand(&[VID_OUTSIDE, BOUND_ALREADY, PAIR_BOUND_ALREADY].map(|refusal| (Seen::Refused(refusal), 20)))?;
    run.demand(&[DISCARD, BEST_EFFORT_EXCEEDED, FRAME_LENGTH].map(|refusal| (Seen::FrameRefused(refusal), 500)))
}

/// Lists from an open port of any content, where queues are full or become so.
fn frames_in_lists_from_any_port(run: &mut Run) -> Result<(), String> {
    for sides in BOTH_SORTS {
        let profile = |random: &mut _| Profile { weights: FRAMES.weights, ..few_ticks(random) };
        play(run, sides, &Plan { lists: 200, calls: 200, begin: an_open_port }, profile)?;
    }
    run.demand(&[(Seen::Bound, 500), (Seen::FrameArrived, 3_000), (Seen::FrameBestEffort, 1_000)])?;
    run.demand(&[DISCARD, BEST_EFFORT_FULL, QUEUE_FULL].map(|refusal| (Seen::FrameRefused(refusal), 100)))
}
