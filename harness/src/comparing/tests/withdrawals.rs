//! The kind `withdrawals`: Withdraw and draining streams, with the replies and octets that document 02 gives, on records of any content, and in lists
//! in which streams drain and their numbers are granted again.

use crate::call::{Call, Reply};
use crate::comparing::calls::{Profile, Weights};
use crate::comparing::compared::Compared;
use crate::comparing::coverage::{Asked, Seen};
use crate::comparing::fit::{no_mark, Octets};
use crate::comparing::frames::Header;
use crate::comparing::profiles::WITHDRAWING;
use crate::comparing::random::Random;
use crate::comparing::sides::Side;
use crate::comparing::stated::{refused_before_all_else, Stated, BOTH_SORTS};
use crate::comparing::test::{Kind, Run, Test};
use crate::comparing::tests::bindings::demand_met;
use crate::comparing::tests::lists::{a_closed_port, an_open_port, never_met_from_opening, play, Plan};
use crate::layout;
use crate::model::refusal::*;

/// The tests of this kind.
pub const TESTS: [Test; 11] = [
    test("withdraw_checks_in_order", withdraw_checks_in_order),
    test("draining_is_asked_before_full_queues", draining_is_asked_before_full_queues),
    test("withdrawn_and_asked_at_every_tick", withdrawn_and_asked_at_every_tick),
    test("whole_share_granted_again_at_once", whole_share_granted_again_at_once),
    test("streams_withdrawn_in_different_epochs", streams_withdrawn_in_different_epochs),
    test("ticks_of_draining_streams", ticks_of_draining_streams),
    test("counts_of_unreserved_streams", counts_of_unreserved_streams),
    test("open_ends_all_draining", open_ends_all_draining),
    test("withdrawals_in_lists", withdrawals_in_lists),
    test("withdrawals_in_lists_from_any_port", withdrawals_in_lists_from_any_port),
    test("withdrawals_on_ports_opened_again", withdrawals_on_ports_opened_again),
];

/// A test of this kind.
const fn test(name: &'static str, body: fn(&mut Run) -> Result<(), String>) -> Test {
    Test { kind: Kind::Withdrawals, name, body }
}

/// Three addresses, of which the last is bound nowhere, and the VID of all.
const ONE: [u8; 6] = [0x02, 0x00, 0x5e, 0x10, 0x20, 0x30];
const OTHER: [u8; 6] = [0x30, 0x20, 0x10, 0x5e, 0x00, 0x02];
const UNBOUND: [u8; 6] = [0x02, 0x00, 0x5e, 0x10, 0x20, 0x31];
const VID: u32 = 100;

/// A Reserve.
const fn reserve(stream: u8, permitted: u32) -> Call {
    Call::Reserve { stream, permitted }
}

/// An Arrive.
const fn arrive(stream: u8, charge: u32) -> Call {
    Call::Arrive { stream, charge, tag: 9 }
}

/// A Bind.
const fn bind(stream: u8, address: [u8; 6], vid: u32) -> Call {
    Call::Bind { stream, address, vid }
}

/// A Withdraw.
const fn withdraw(stream: u8) -> Call {
    Call::Withdraw { stream }
}

/// A reply with two zeros.
const ZEROS: Reply = Reply::granted(0, 0);
/// A refusal with 25.
const REFUSED: Reply = Reply::refused(25);

/// Streams 5 and 6, draining, of which 5 is bound to (ONE, 100); 7, reserved and bound to (OTHER, 100); 9, reserved alone; 8, not reserved.
fn two_draining(run: &mut Run, sides: [Side; 2]) -> Result<Octets, String> {
    let mut list = Stated::opened(run, sides, 2_704, 1, &[(5, 200), (6, 200), (7, 84), (9, 84)])?;
    list.bound(5, (ONE, VID))?;
    list.bound(7, (OTHER, VID))?;
    list.withdrawn(5)?;
    list.withdrawn(6)?;
    Ok(list.octets())
}

/// Calls on that port with what each is refused with first, or 0: where two refusals hold, the first of "18 19 1 5 25 6 7 8", of
/// "18 19 1 5 25 12 13 14", of "18 19 1 5 25 12 9 10 11" and of "18 19 1 5 25 12".
const CALLS: [(Call, u8); 41] = [
    (reserve(64, 0), 5),
    (reserve(255, 200), 5),
    (reserve(5, 84), 25),
    (reserve(5, 83), 25),
    (reserve(5, 0), 25),
    (reserve(5, 117), 25),
    (reserve(6, u32::MAX), 25),
    (reserve(7, 83), 6),
    (reserve(8, 83), 7),
    (reserve(8, 117), 8),
    (reserve(8, 116), 0),
    (arrive(64, 0), 5),
    (arrive(5, 84), 25),
    (arrive(5, 83), 25),
    (arrive(5, 0), 25),
    (arrive(5, 2_020), 25),
    (arrive(6, 2_021), 25),
    (arrive(6, u32::MAX), 25),
    (arrive(8, 84), 12),
    (arrive(8, 83), 12),
    (arrive(7, 83), 13),
    (arrive(7, 85), 14),
    (bind(64, UNBOUND, 0), 5),
    (bind(5, UNBOUND, VID), 25),
    (bind(5, UNBOUND, 0), 25),
    (bind(5, ONE, VID), 25),
    (bind(5, OTHER, VID), 25),
    (bind(6, UNBOUND, VID), 25),
    (bind(6, UNBOUND, 4_095), 25),
    (bind(6, ONE, VID), 25),
    (bind(6, OTHER, VID), 25),
    (bind(8, UNBOUND, 0), 12),
    (bind(9, UNBOUND, 0), 9),
    (bind(7, ONE, VID), 10),
    (bind(9, ONE, VID), 11),
    (withdraw(64), 5),
    (withdraw(255), 5),
    (withdraw(5), 25),
    (withdraw(6), 25),
    (withdraw(8), 12),
    (withdraw(9), 0),
];

/// Every call of the table on an open port, and on ports where 18, 19 or 1 come before all that; and frames of a draining stream, by their lengths.
fn withdraw_checks_in_order(run: &mut Run) -> Result<(), String> {
    for sides in BOTH_SORTS {
        let draining = two_draining(run, sides)?;
        for (octets, before) in refused_before_all_else(&draining) {
            let mut list = Stated::on(run, sides, &octets);
            for (call, own) in &CALLS {
                list.lend_again(&octets);
                list.call(call.clone(), Reply::refused(before.unwrap_or(*own)))?;
            }
            list.lend_again(&octets);
            for (length, own) in [(59, 17), (60, 25), (177, 25), (1_519, 25), (1_996, 25), (1_997, 17)] {
                list.frame(&Header::tagged(ONE, VID as u16), length, 1, Reply::refused(before.unwrap_or(own)))?;
            }
        }
    }
    let met = [MEMORY_SHORT, RECORD_UNFIT, PORT_CLOSED, STREAM_ABOVE, DRAINING, NOT_RESERVED];
    met.iter().try_for_each(|&refusal| demand_met(run, Seen::Refused(refusal)))?;
    [Seen::Withdrawn, Seen::FrameRefused(DRAINING)].into_iter().try_for_each(|seen| demand_met(run, seen))
}

/// 25 comes before 20, which asks of the queue that a frame would join, and before 14, which finds none.
fn draining_is_asked_before_full_queues(run: &mut Run) -> Result<(), String> {
    for sides in BOTH_SORTS {
        let mut octets = two_draining(run, sides)?;
        let mut list = Stated::on(run, sides, &octets);
        for queue in 0..4 {
            octets.put_queue(&mut list.random, queue, 200, 256);
        }
        list.lend_again(&octets);
        for (call, reply) in [(arrive(7, 84), Reply::refused(20)), (arrive(5, 84), REFUSED), (arrive(5, 201), REFUSED)] {
            list.call(call, reply)?;
        }
        list.frame(&Header::tagged(OTHER, VID as u16), 60, 1, Reply::refused(20))?;
        list.frame(&Header::tagged(ONE, VID as u16), 60, 1, REFUSED)?;
    }
    [QUEUE_FULL, DRAINING].iter().try_for_each(|&refusal| demand_met(run, Seen::FrameRefused(refusal)))
}

/// What is refused before each of the four ticks: the stream takes nothing and its number is taken; its P of 200 is in R, so that 100 of the share
/// of 600 are free beside stream 6, and best effort goes to 2,120; its pair is taken.
const WHILE_DRAINING: [(Call, u8); 8] = [
    (arrive(5, 84), 25),
    (reserve(5, 84), 25),
    (withdraw(5), 25),
    (bind(5, UNBOUND, VID), 25),
    (bind(6, ONE, VID), 11),
    (reserve(7, 101), 8),
    (Call::BestEffort { charge: 101, tag: 1 }, 16),
    (withdraw(7), 12),
];

/// A list that withdraws a stream with frames in three queues, asks at every tick, and reserves again at the fourth.
fn withdrawn_and_asked_at_every_tick(run: &mut Run) -> Result<(), String> {
    for sides in BOTH_SORTS {
        let mut list = Stated::opened(run, sides, 2_620, 1, &[(5, 200), (6, 300)])?;
        list.bound(5, (ONE, VID))?;
        for (place, left) in [(1, 200), (2, 200), (3, 0)] {
            list.call(Call::Arrive { stream: 5, charge: 200, tag: place }, Reply::granted(place, left))?;
        }
        list.call(Call::BestEffort { charge: 2_020, tag: 7 }, Reply::granted(2_020, 0))?;
        list.withdrawn(5)?;
        for sent in [Some(1), Some(2), Some(3), None] {
            for (call, refusal) in WHILE_DRAINING {
                list.call(call, Reply::refused(refusal))?;
            }
            list.frame(&Header::tagged(ONE, VID as u16), 60, 1, REFUSED)?;
            if let Some(tag) = sent {
                list.call(Call::Transmit, Reply::granted(5, tag))?;
            }
            list.call(Call::Tick, ZEROS)?;
        }
        free_after_draining(&mut list)?;
    }
    [Seen::Freed, Seen::FreedBound, Seen::GrantedAgainAtOnce].into_iter().try_for_each(|seen| demand_met(run, seen))
}

/// What follows the fourth tick: number, share and pair are free.
fn free_after_draining(list: &mut Stated) -> Result<(), String> {
    for (call, refusal) in [(arrive(5, 84), 12), (withdraw(5), 12), (bind(5, ONE, VID), 12), (reserve(7, 301), 8)] {
        list.call(call, Reply::refused(refusal))?;
    }
    list.frame(&Header::tagged(ONE, VID as u16), 60, 1, Reply::granted(2_104, 0))?;
    list.call(Call::BestEffort { charge: 217, tag: 1 }, Reply::refused(16))?;
    list.call(Call::BestEffort { charge: 216, tag: 1 }, Reply::granted(2_320, 0))?;
    list.call(reserve(5, 300), ZEROS)?;
    list.bound(6, (ONE, VID))?;
    list.call(bind(5, ONE, VID), Reply::refused(11))?;
    list.frame(&Header::tagged(ONE, VID as u16), 60, 1, Reply::granted(1, 216))?;
    list.call(arrive(5, 84), Reply::granted(1, 216))
}

/// All of the share is withdrawn and granted again at the first moment possible, under the same number and under another, for each of the streams.
fn whole_share_granted_again_at_once(run: &mut Run) -> Result<(), String> {
    for sides in BOTH_SORTS {
        for stream in 0..64 {
            for again in [stream, (stream + 1) % 64] {
                let mut list = Stated::opened(run, sides, 23_524, 1, &[(stream, 21_504)])?;
                list.withdrawn(stream)?;
                for _ in 0..4 {
                    list.call(reserve(again, 21_504), Reply::refused(if again == stream { 25 } else { 8 }))?;
                    list.call(Call::Tick, ZEROS)?;
                }
                list.call(reserve(again, 21_504), ZEROS)?;
                list.call(arrive(again, 2_020), Reply::granted(1, 19_484))?;
                list.withdrawn(again)?;
            }
        }
    }
    run.demand(&[(Seen::Freed, 256), (Seen::GrantedAgainAtOnce, 128), (Seen::Refused(SHARE_EXCEEDED), 512)])
}

/// Streams that are withdrawn one after another, a tick between any two, are free one after another.
fn streams_withdrawn_in_different_epochs(run: &mut Run) -> Result<(), String> {
    for sides in BOTH_SORTS {
        let streams: Vec<(u8, u32)> = (0..64).map(|stream| (stream, 336)).collect();
        let mut list = Stated::opened(run, sides, 23_524, 1, &streams)?;
        let order = list.random.shuffled(64);
        (0..order.len() + 4).try_for_each(|epoch| one_withdrawn_one_free(&mut list, &order, epoch))?;
    }
    run.demand(&[(Seen::Freed, 128), (Seen::GrantedAgainAtOnce, 128)])
}

/// One epoch of that: the stream that was withdrawn four ticks before is granted again, those of the three ticks since are not, and one is withdrawn.
fn one_withdrawn_one_free(list: &mut Stated, order: &[usize], epoch: usize) -> Result<(), String> {
    let withdrawn = |before: usize| epoch.checked_sub(before).and_then(|number| order.get(number)).map(|&stream| stream as u8);
    if let Some(stream) = withdrawn(4) {
        list.call(reserve(stream, 337), Reply::refused(8))?;
        list.call(reserve(stream, 336), ZEROS)?;
        list.call(arrive(stream, 84), Reply::granted(1, 252))?;
        list.call(Call::Transmit, Reply::granted(u32::from(stream), 9))?;
    }
    (1..4).filter_map(withdrawn).try_for_each(|stream| list.call(reserve(stream, 336), REFUSED))?;
    if let Some(stream) = withdrawn(0) {
        list.withdrawn(stream)?;
    }
    list.call(Call::Tick, ZEROS)
}

/// A tick on records of any content writes of each entry just what is said of it, reserved or not, draining or not.
fn ticks_of_draining_streams(run: &mut Run) -> Result<(), String> {
    for _ in 0..run.scaled(400) {
        for sides in BOTH_SORTS {
            let mut random = run.next_record("draining streams at a tick");
            let octets = any_draining(&mut random);
            let mut compared = Compared::guarded(sides, run, &octets.record, &octets.memory);
            compared.expect(run, &Call::Tick, |reply| reply.refusal == 0, "a granted tick")?;
            let is_wrong =
                |stream: &usize| compared.record()[layout::entry(*stream)..][..16] != entry_after_a_tick(&octets.record, *stream);
            if let Some(stream) = (0..64).find(is_wrong) {
                return Err(format!("{}: after a tick the entry of stream {stream} is not what it is said to be", run.place));
            }
        }
    }
    run.demand(&[(Seen::Ticked, 800), (Seen::Freed, 2_000), (Seen::FreedBound, 500)])
}

/// An open port of which most reserved streams drain, and every stream that is not reserved has a count.
fn any_draining(random: &mut Random) -> Octets {
    let mut octets = Octets::fit(random, true);
    for stream in 0..64 {
        let at = layout::entry(stream) + layout::DRAINING;
        octets.record[at] = match layout::is_reserved(&octets.record, stream) {
            true => random.between(0..=4) as u8,
            false => random.pick(&[1, 2, 4, 5, 255]),
        };
    }
    octets
}

/// The entry of a stream after a tick: place and left of a reserved stream move, then its draining goes on or ends.
fn entry_after_a_tick(record: &[u8], stream: usize) -> [u8; 16] {
    let mut entry: [u8; 16] = record[layout::entry(stream)..][..16].try_into().expect("an entry has 16 octets");
    if entry[0] != 1 {
        return entry;
    }
    match entry[1] {
        1 => entry.copy_within(4..6, 2),
        _ => entry[1] -= 1,
    }
    match entry[6] {
        0 => (),
        1 => (entry[0], entry[6], entry[7]) = (0, 0, 0),
        _ => entry[6] -= 1,
    }
    entry
}

/// "The count of an unreserved stream means nothing": whatever it is, the stream is not reserved and can be, and Reserve clears it.
fn counts_of_unreserved_streams(run: &mut Run) -> Result<(), String> {
    for sides in BOTH_SORTS {
        let mut list = Stated::opened(run, sides, 2_620, 1, &[(5, 200)])?;
        let begin = list.octets();
        for count in 0..=255 {
            let (mut octets, stream) = (begin.clone(), list.random.pick(&[0, 4, 6, 63]));
            let at = layout::entry(usize::from(stream));
            octets.record[at] = no_mark(&mut list.random);
            octets.record[at + 6] = count;
            list.lend_again(&octets);
            for call in [arrive(stream, 84), withdraw(stream), bind(stream, ONE, VID)] {
                list.call(call, Reply::refused(12))?;
            }
            list.call(reserve(stream, 300), Reply::granted(100, 0))?;
            octets.record[at..at + 7].copy_from_slice(&[1, 1, 0x01, 0x2c, 0x01, 0x2c, 0]);
            if list.octets() != octets {
                return Err(format!("a reservation of a stream with count {count} writes other octets than its seven"));
            }
            list.call(arrive(stream, 84), Reply::granted(1, 216))?;
        }
    }
    run.demand(&[(Seen::Reserved, 512), (Seen::Refused(NOT_RESERVED), 1_536)])
}

/// "Open ends all draining, as it drops reservations": octets 0, 6 and 7 of all entries are 0 after it, and the numbers free at once.
fn open_ends_all_draining(run: &mut Run) -> Result<(), String> {
    for sides in BOTH_SORTS {
        let mut octets = two_draining(run, sides)?;
        octets.record[layout::OPEN] = 0;
        for stream in (0..64).filter(|stream| ![5, 6, 7, 9].contains(stream)) {
            octets.record[layout::entry(stream) + 6] = 1 + stream as u8 * 4;
        }
        let mut list = Stated::on(run, sides, &octets);
        list.call(Call::Open { link: 2_620, delay: 1 }, Reply::granted(600, 0))?;
        let record = list.record();
        if (0..64).any(|stream| [0, 6, 7].map(|octet| record[layout::entry(stream) + octet]) != [0; 3]) {
            return Err(String::from("a granted Open leaves a mark or a draining count in an entry"));
        }
        list.call(reserve(5, 600), ZEROS)?;
        list.bound(5, (ONE, VID))?;
        list.frame(&Header::tagged(ONE, VID as u16), 60, 1, Reply::granted(1, 516))?;
        list.call(Call::Transmit, Reply::granted(5, 1))?;
        (0..5).try_for_each(|_| list.call(Call::Tick, ZEROS))?;
        list.frame(&Header::tagged(ONE, VID as u16), 60, 1, Reply::granted(1, 516))?;
    }
    run.demand(&[(Seen::DrainingEndedByOpen, 4)])
}

/// Each call that a draining stream refuses.
pub const OF_DRAINING: [Seen; 4] = [
    Seen::RefusedDraining(Asked::Reservation),
    Seen::RefusedDraining(Asked::Arrival),
    Seen::RefusedDraining(Asked::Binding),
    Seen::RefusedDraining(Asked::Withdrawal),
];

/// The demands of a list in which streams drain and their numbers are granted again.
pub fn demand_withdrawals(run: &Run, times: u64) -> Result<(), String> {
    run.demand(&[
        (Seen::Withdrawn, times),
        (Seen::Freed, times),
        (Seen::FreedBound, times / 4),
        (Seen::FrameRefused(DRAINING), times / 4),
    ])?;
    run.demand(&[(Seen::GrantedAgain, times / 2), (Seen::GrantedAgainAtOnce, times / 8)])?;
    run.demand(&OF_DRAINING.map(|seen| (seen, times / 8)))
}

/// Lists from an opening, the calls beside the model and the quick calls beside the calls.
fn withdrawals_in_lists(run: &mut Run) -> Result<(), String> {
    for sides in [[Side::Exports, Side::Model], [Side::Quick, Side::Exports]] {
        play(run, sides, &Plan { lists: 150, calls: 800, begin: a_closed_port }, |_| WITHDRAWING)?;
    }
    never_met_from_opening(run)?;
    demand_withdrawals(run, 4_000)
}

/// Lists from an open port of any content, whose streams drain already or have counts that mean nothing.
fn withdrawals_in_lists_from_any_port(run: &mut Run) -> Result<(), String> {
    for sides in BOTH_SORTS {
        let profile = |random: &mut Random| Profile { streams: random.pick(&[6, 12, 64]), ..WITHDRAWING };
        play(run, sides, &Plan { lists: 200, calls: 200, begin: an_open_port }, profile)?;
    }
    demand_withdrawals(run, 400)
}

/// Lists in which the host closes ports whose streams drain, and opens them again.
fn withdrawals_on_ports_opened_again(run: &mut Run) -> Result<(), String> {
    let profile = Profile { weights: Weights { open: 2, close: 3, ..WITHDRAWING.weights }, ..WITHDRAWING };
    for sides in BOTH_SORTS {
        play(run, sides, &Plan { lists: 150, calls: 300, begin: an_open_port }, |_| profile.clone())?;
    }
    run.demand(&[(Seen::DrainingEndedByOpen, 400), (Seen::Closed, 800)])?;
    demand_withdrawals(run, 500)
}
