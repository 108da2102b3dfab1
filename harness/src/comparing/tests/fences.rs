//! The tests of the kind `quick` between fences: the proved calls, quick or not, touch no octet outside the slices that were lent, and write none of a
//! slice that was lent to be read.

use crate::call::Call;
use crate::comparing::calls::each_call;
use crate::comparing::compared::Compared;
use crate::comparing::counts::Counting;
use crate::comparing::coverage::Seen;
use crate::comparing::fenced::{lend_given, lend_pair, Edge, EDGES};
use crate::comparing::fit::Octets;
use crate::comparing::lent::Lend;
use crate::comparing::lookups::Looked;
use crate::comparing::sides::Side;
use crate::comparing::test::{Kind, Run, Test};
use crate::comparing::tests::counts::QUESTIONS;
use crate::comparing::tests::each_call::try_lengths;
use crate::comparing::tests::registers::OF_ACCESSES;
use crate::model::octets::{MEMORY_OCTETS, PORT_OCTETS};
use crate::model::refusal::{DRAINING, FRAME_LENGTH};

/// The tests between fences.
pub const TESTS: [Test; 4] = [
    Test { kind: Kind::Quick, name: "fences_notice_a_touch", body: fences_notice_a_touch },
    Test { kind: Kind::Quick, name: "calls_between_fences", body: calls_between_fences },
    Test { kind: Kind::Quick, name: "quick_calls_between_fences", body: quick_calls_between_fences },
    Test { kind: Kind::Quick, name: "slices_lent_to_be_read", body: slices_lent_to_be_read },
];

/// A read right outside a slice is noticed at either edge, of record and memory and of what a call is given to read.
fn fences_notice_a_touch(run: &mut Run) -> Result<(), String> {
    for length in [0, 1, PORT_OCTETS, MEMORY_OCTETS] {
        for edge in EDGES {
            run.records += 3;
            let noticed = [0, 1, 2].map(|slice| touch_is_noticed(length, edge, slice));
            if noticed != [true; 3] {
                return Err(format!("a read outside {length} octets at their {edge:?} is noticed: record, memory, given {noticed:?}"));
            }
        }
    }
    Ok(())
}

/// Whether a read right outside one of three lent slices is noticed, and nothing before it.
fn touch_is_noticed(length: usize, edge: Edge, slice: usize) -> bool {
    let octets = vec![0; length];
    let (record, memory) = lend_pair(&octets, &octets, [edge; 2]);
    let given = lend_given(&octets, edge);
    let touched = [&record, &memory, &given][slice];
    let kept_before = touched.outside_kept();
    touched.touch_outside(edge);
    kept_before && !touched.outside_kept()
}

/// The proved calls.
fn calls_between_fences(run: &mut Run) -> Result<(), String> {
    between_fences(run, Side::Exports)
}

/// The proved quick calls.
fn quick_calls_between_fences(run: &mut Run) -> Result<(), String> {
    between_fences(run, Side::Quick)
}

/// Each call on records of every shape at every pair of lengths, against fences before and after.
fn between_fences(run: &mut Run, side: Side) -> Result<(), String> {
    try_lengths(run, 20, |run, random, octets| {
        let edges = [(); 3].map(|()| random.pick(&EDGES));
        Compared::fenced(side, run, &octets.record, &octets.memory, edges)
    })?;
    run.demand(&[(Seen::FitRecord, 100), (Seen::UnfitRecord, 500), (Seen::Ticked, 40), (Seen::Opened, 40), (Seen::BestEffort, 40)])?;
    run.demand(&[(Seen::Bound, 20), (Seen::FrameArrived, 20), (Seen::FrameBestEffort, 40), (Seen::FrameRefused(FRAME_LENGTH), 20)])?;
    run.demand(&[(Seen::Withdrawn, 40), (Seen::Freed, 20), (Seen::Refused(DRAINING), 20)])?;
    run.demand(&OF_ACCESSES.map(|seen| (seen, 20)))?;
    run.demand(&[Looked::Found, Looked::NoneByVid, Looked::NoneByAddress, Looked::Refused].map(|looked| (Seen::Lookup(looked), 20)))?;
    run.demand(&QUESTIONS.map(|counting| (Seen::Counting(counting), 100)))?;
    run.demand(&[Counting::Chosen, Counting::ChosenAbove].map(|chosen| (Seen::Counting(chosen), 10)))?;
    run.demand(&[(Seen::RegisterRead, 40), (Seen::MaskWritten, 20), (Seen::ControlTicked, 10), (Seen::ControlTransmitted, 10)])
}

/// What a call is lent to be read alone: a read of a register, a lookup and a question for a stream's counts the port, and every call but those that
/// bring a frame the memory.
fn lent_to_be_read(call: &Call) -> [bool; 2] {
    let brings = matches!(call, Call::Arrive { .. } | Call::BestEffort { .. } | Call::Frame { .. });
    [matches!(call, Call::ReadRegister { .. } | Call::Lookup { .. } | Call::StreamCounts { .. }), !brings]
}

/// The proved calls, quick or not, write no octet of a slice that is lent to be read, not even the octet that stands there; and such a write is
/// noticed, by frames that join.
fn slices_lent_to_be_read(run: &mut Run) -> Result<(), String> {
    for _ in 0..run.scaled(200) {
        for side in [Side::Exports, Side::Quick] {
            let mut random = run.next_record("slices lent to be read");
            let octets = Octets::fit(&mut random, true);
            for call in each_call(&mut random, &octets.record) {
                let reading = lent_to_be_read(&call);
                if !kept_by(run, side, &call, &octets, reading) {
                    return Err(format!("{}, {side}: {call} writes a slice that it is lent to be read", run.place));
                }
            }
            let arrival = Call::BestEffort { charge: 84, tag: 1 };
            let noticed = !kept_by(run, side, &arrival, &octets, [false, true]);
            run.coverage.add(Seen::WriteNoticed, u64::from(noticed));
        }
    }
    run.demand(&[(Seen::WriteNoticed, 100), (Seen::RegisterRead, 500), (Seen::LineUp, 20), (Seen::LineDown, 20)])?;
    run.demand(&[Looked::Found, Looked::NoneByVid, Looked::NoneByAddress].map(|looked| (Seen::Lookup(looked), 20)))?;
    run.demand(&[Counting::Asked, Counting::AskedUnchosen, Counting::RefusedAbove].map(|asked| (Seen::Counting(asked), 200)))
}

/// Whether a call on copies of a port and a memory, of which some may be read alone, writes neither those nor an octet outside.
fn kept_by(run: &mut Run, side: Side, call: &Call, octets: &Octets, reading: [bool; 2]) -> bool {
    let (mut port, mut memory) = lend_pair(&octets.record, &octets.memory, [Edge::Back; 2]);
    [&port, &memory].into_iter().zip(reading).filter(|(_, reading)| *reading).for_each(|(slice, _)| slice.read_only());
    let reply = (run.sides.play(side))(&call.given(), port.octets_mut(), memory.octets_mut());
    run.calls += 1;
    run.coverage.count_access(call, &reply);
    match call {
        Call::Lookup { address, vid } => run.coverage.count_lookup(address, *vid, &reply, &octets.record),
        Call::StreamCounts { stream } => run.coverage.count_question(*stream, &reply, &octets.record),
        _ => (),
    }
    port.outside_kept()
}
