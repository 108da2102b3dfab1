//! Batches of calls whose cost is measured, and the ports that they start from: one with no stream, one with few, one with all streams bound and no
//! frame, a full one, full ones whose streams are bound as those of a plant are, such without a frame for lookups, and one whose streams have counts.

use crate::call::{Call, Reply, ADDRESS_OCTETS};
use crate::comparing::fit::Octets;
use crate::comparing::frames::Header;
use crate::comparing::random::Random;
use crate::comparing::registers::{ACCEPTED, CHOICE, CONTROL, DISCARDED, MASK, STATUS};
use crate::comparing::sides::Play;
use crate::comparing::stated::Pair;
use crate::model::port::{
    BEST_EFFORT, BEST_EFFORT_STREAM, DRAINING_TICKS, LAST, LEAST_CHARGE, LEAST_PERMITTED, LINKS, QUEUES, QUEUE_PLACES, STREAMS,
};
use crate::model::refusal::{DISCARD, DRAINING};
use crate::model::registers::{TICKS, TRANSMITS};
use crate::{exports, in_place, layout, model};

/// L and K of every port: the greatest share, 21,504 octets, is 256 frames of the least charge.
const LINK: u32 = *LINKS.end();
const DELAY: u32 = 16;

/// How many calls a batch has, unless each purges a whole queue.
const BATCH: usize = 64;

/// The streams of a port with few.
const FEW: u8 = 4;

/// The VID to which every stream is bound, where all share one, and the first of those of a plant.
const VID: u32 = 1;

/// How many VIDs a plant has: its streams take them in turn.
const PLANT_VIDS: usize = 4;

/// The address octets that all machines of a plant share, the first ones.
const PLANT: [u8; ADDRESS_OCTETS - 1] = [0x02, 0x00, 0x5e, 0x10, 0x20];

/// One batch: what is measured, the port that it starts from, its calls, and the refusal that all of them meet, or 0.
pub struct Batch {
    pub what: &'static str,
    pub port: Octets,
    pub calls: Vec<Call>,
    pub refusal: u8,
}

/// The batches that start from ports of one sort.
pub struct Group {
    pub port: &'static str,
    pub batches: Vec<Batch>,
}

/// The pair to which each stream is bound; number 64, of no stream, has one that nobody is bound to.
type Pairs = fn(usize) -> Pair;

/// All batches. Where frames come and go, the first two of a group are one of arrivals and one of transmits.
pub fn groups() -> [Group; 7] {
    [
        Group { port: "no stream", batches: vec![nothing_waits(opened(0))] },
        Group { port: "4 streams", batches: few() },
        Group { port: "64 streams, no frame", batches: without_frame() },
        Group { port: "64 bound streams, full queues", batches: full() },
        Group { port: "64 streams bound as in a plant, full queues", batches: plants() },
        Group { port: "64 bound streams, no frame", batches: lookups() },
        Group { port: "64 streams with counts", batches: counts() },
    ]
}

impl Group {
    /// Whether the first two batches are arrivals and transmits.
    pub fn begins_with_arrivals(&self) -> bool {
        matches!(self.batches[0].calls[0], Call::Arrive { .. })
    }
}

impl Batch {
    /// A batch whose calls are all granted.
    fn granted(what: &'static str, port: Octets, calls: Vec<Call>) -> Batch {
        Batch { what, port, calls, refusal: 0 }
    }

    /// Stops unless every call of the batch meets its refusal, or none, and the quick calls, Rust in place and the outside program reply the same and
    /// leave the same octets: else they would not do the same work.
    pub fn same_on_all_sides(&self) {
        let by_call = self.run(exports::call);
        assert!(by_call.0.iter().all(|reply| reply.refusal == self.refusal), "{}: a call replies another refusal", self.what);
        assert!(by_call == self.run(exports::unscanned), "{}: the quick calls part from the calls", self.what);
        assert!(by_call == self.run(in_place::call), "{}: Rust parts from the calls", self.what);
        assert!(by_call == self.run(model::call), "{}: the outside program parts from the calls", self.what);
    }

    /// The replies of the batch on one side, and the port and memory after it.
    fn run(&self, side: Play) -> (Vec<Reply>, Vec<u8>, Vec<u8>) {
        let Octets { mut record, mut memory } = self.port.clone();
        let replies = self.calls.iter().map(|call| side(&call.given(), &mut record, &mut memory)).collect();
        (replies, record, memory)
    }
}

/// The batches of a port with few streams, whose queues are nearly empty.
fn few() -> Vec<Batch> {
    let arrivals = arrivals(FEW.into());
    let arrived = after(opened(FEW), &arrivals);
    let mut batches = vec![
        Batch::granted("arrive", opened(FEW), arrivals.clone()),
        Batch::granted("transmit", arrived.clone(), vec![Call::Transmit; BATCH]),
        Batch { refusal: DISCARD, ..Batch::granted("arrive, discarded", spent(), arrivals) },
        Batch::granted("tick, nothing to purge", opened(FEW), vec![Call::Tick; BATCH]),
        Batch::granted("best effort", opened(FEW), best_effort()),
    ];
    batches.extend(registers(opened(FEW), arrived));
    batches
}

/// The batches of accesses to registers, of which the last starts from a port with a batch of frames to send.
fn registers(port: Octets, with_frames: Octets) -> [Batch; 4] {
    let write = |offset: u32, value: u32| vec![Call::WriteRegister { offset, value }; BATCH];
    [
        Batch::granted("register read, status", port.clone(), vec![Call::ReadRegister { offset: STATUS }; BATCH]),
        Batch::granted("register write, mask", port.clone(), write(MASK, u32::MAX)),
        Batch::granted("control write, tick", port, write(CONTROL, TICKS)),
        Batch::granted("control write, transmit", with_frames, write(CONTROL, TRANSMITS)),
    ]
}

/// The batches of ports with all streams and without a frame.
fn without_frame() -> Vec<Batch> {
    let unbound = opened(STREAMS as u8);
    let bound = after(unbound.clone(), &binds(of_one_vid));
    let draining = after(bound.clone(), &withdraws());
    vec![
        nothing_waits(unbound.clone()),
        Batch { what: "transmit, all streams bound", ..nothing_waits(bound) },
        Batch::granted("bind, 0 to 63 streams bound", unbound.clone(), binds(of_one_vid)),
        Batch::granted("withdraw", unbound, withdraws()),
        Batch { refusal: DRAINING, ..Batch::granted("arrive, all streams draining", draining.clone(), arrivals(STREAMS)) },
        Batch::granted("tick, all streams draining", draining, vec![Call::Tick; usize::from(DRAINING_TICKS)]),
    ]
}

/// The batches of a port with all streams bound, whose queues are full or become so.
fn full() -> Vec<Batch> {
    let [all_full, last_fills, best_effort_fills] =
        [QUEUES, usize::from(LAST), BEST_EFFORT].map(|not_full| filled(opened(STREAMS as u8), of_one_vid, not_full));
    let last_stream_fills = filled(opened_for_the_last(), of_one_vid, usize::from(LAST));
    let ticks = vec![Call::Tick; 4];
    let purged = after(all_full.clone(), &ticks);
    let tagged = header(of_one_vid(STREAMS - 1));
    let untagged = Header { protocol: [0x08, 0x00], ..tagged };
    let of_registers = registers(purged.clone(), all_full.clone());
    let mut batches = vec![
        Batch::granted("arrive, 1,216 to 1,280 frames", last_fills, arrivals(STREAMS)),
        Batch::granted("transmit, 1,280 to 1,216 frames", all_full.clone(), vec![Call::Transmit; BATCH]),
        Batch::granted("tick, 256 frames purged", all_full, ticks),
        Batch::granted("tick, nothing to purge", purged, vec![Call::Tick; BATCH]),
        Batch::granted("best effort, 1,216 to 1,280", best_effort_fills.clone(), best_effort()),
        Batch::granted("frame of stream 63, 1,216 to 1,280", last_stream_fills, frames(&tagged)),
        Batch::granted("frame, untagged, 1,216 to 1,280", best_effort_fills, frames(&untagged)),
    ];
    batches.extend(of_registers);
    batches
}

/// The batches of frames on ports whose streams are bound as those of a plant, few VIDs or one each: of the last stream, and of none.
fn plants() -> Vec<Batch> {
    let of_the_last = |what: &'static str, pairs: Pairs| {
        let port = filled(opened_for_the_last(), pairs, usize::from(LAST));
        Batch::granted(what, port, frames(&header(pairs(STREAMS - 1))))
    };
    let best_effort_fills = filled(opened(STREAMS as u8), of_few_vids, BEST_EFFORT);
    vec![
        of_the_last("frame of stream 63, 4 VIDs", of_few_vids),
        of_the_last("frame of stream 63, 64 VIDs", of_a_vid_each),
        Batch::granted("frame of no stream, 4 VIDs", best_effort_fills, frames(&header(of_few_vids(STREAMS)))),
    ]
}

/// The batches of lookups, of the last stream and of none, on ports without a frame: one VID for all, few as in a plant, or one each.
fn lookups() -> Vec<Batch> {
    let of = |what: &'static str, pairs: Pairs, stream: usize| {
        let (address, vid) = pairs(stream);
        Batch::granted(what, after(opened(STREAMS as u8), &binds(pairs)), vec![Call::Lookup { address, vid }; BATCH])
    };
    vec![
        of("lookup of stream 63, 1 VID", of_one_vid, STREAMS - 1),
        of("lookup of stream 63, 4 VIDs", of_few_vids, STREAMS - 1),
        of("lookup of stream 63, 64 VIDs", of_a_vid_each, STREAMS - 1),
        of("lookup of no stream, 4 VIDs", of_few_vids, STREAMS),
    ]
}

/// The batches about the counts of streams: reads of the last stream's and of none's, the choice, questions for the last stream's and for those of
/// every stream in turn, and withdrawals, which zero them.
fn counts() -> Vec<Batch> {
    let port = after(opened(STREAMS as u8), &arrivals(STREAMS));
    let last = STREAMS as u32 - 1;
    let choose = |value: u32| Call::WriteRegister { offset: CHOICE, value };
    let read = |what: &'static str, choice: u32, offset: u32| {
        Batch::granted(what, after(port.clone(), &[choose(choice)]), vec![Call::ReadRegister { offset }; BATCH])
    };
    let of_every_stream = (0..STREAMS).map(|stream| Call::StreamCounts { stream: stream as u8 }).collect();
    vec![
        read("register read, accepted of stream 63", last, ACCEPTED),
        read("register read, discards of stream 63", last, DISCARDED),
        read("register read, accepted of no stream", last + 1, ACCEPTED),
        Batch::granted("register write, choice", port.clone(), vec![choose(last); BATCH]),
        Batch::granted("counts of stream 63", port.clone(), vec![Call::StreamCounts { stream: last as u8 }; BATCH]),
        Batch::granted("counts of all 64 streams, each", port.clone(), of_every_stream),
        Batch::granted("withdraw, counts to zero", port, withdraws()),
    ]
}

/// A batch of transmits that find nothing to send: what they take as calls and not as quick calls is the scan of 19.
fn nothing_waits(port: Octets) -> Batch {
    Batch::granted("transmit, nothing waits", port, vec![Call::Transmit; BATCH])
}

/// A batch of arrivals of the least charge, on so many streams in turn.
fn arrivals(streams: usize) -> Vec<Call> {
    (0..BATCH).map(|i| Call::Arrive { stream: (i % streams) as u8, charge: LEAST_CHARGE, tag: i as u32 }).collect()
}

/// A batch of best-effort frames of the least charge.
fn best_effort() -> Vec<Call> {
    (0..BATCH).map(|i| Call::BestEffort { charge: LEAST_CHARGE, tag: i as u32 }).collect()
}

/// A batch of frames of the least charge with one header.
fn frames(header: &Header) -> Vec<Call> {
    let mut random = Random::of(1, "frames", 0);
    (0..BATCH).map(|i| header.frame(&mut random, LEAST_CHARGE, i as u32)).collect()
}

/// A binding of each stream.
fn binds(pairs: Pairs) -> Vec<Call> {
    let bind = |stream: usize| {
        let (address, vid) = pairs(stream);
        Call::Bind { stream: stream as u8, address, vid }
    };
    (0..STREAMS).map(bind).collect()
}

/// A withdrawal of each stream.
fn withdraws() -> Vec<Call> {
    (0..STREAMS).map(|stream| Call::Withdraw { stream: stream as u8 }).collect()
}

/// The pair of a stream where all share one VID, and all address octets but the last.
fn of_one_vid(stream: usize) -> Pair {
    ([0, 0, 0, 0, 0, stream as u8], VID)
}

/// The pair of a stream of a plant, whose streams take few VIDs in turn.
fn of_few_vids(stream: usize) -> Pair {
    (in_plant(stream), VID + (stream % PLANT_VIDS) as u32)
}

/// The pair of a stream of a plant in which each has a VID of its own.
fn of_a_vid_each(stream: usize) -> Pair {
    (in_plant(stream), VID + stream as u32)
}

/// The address of a stream of a plant, of which the last octet alone is its own.
fn in_plant(stream: usize) -> [u8; ADDRESS_OCTETS] {
    let [a, b, c, d, e] = PLANT;
    [a, b, c, d, e, stream as u8]
}

/// The header of a frame of a pair.
fn header((address, vid): Pair) -> Header {
    Header::tagged(address, vid as u16)
}

/// An open port with this many streams, which share the link evenly.
fn opened(streams: u8) -> Octets {
    reserved(streams, |share, _| share / u32::from(streams))
}

/// An open port with all streams, of which the last has what the others leave of the share.
fn opened_for_the_last() -> Octets {
    let others = LEAST_PERMITTED * (STREAMS as u32 - 1);
    reserved(STREAMS as u8, |share, stream| if usize::from(stream) + 1 < STREAMS { LEAST_PERMITTED } else { share - others })
}

/// An open port with this many streams, each with its P by the share and its number.
fn reserved(streams: u8, permitted: impl Fn(u32, u8) -> u32) -> Octets {
    let mut port = Octets::zero();
    let share = exports::call(&Call::Open { link: LINK, delay: DELAY }, &mut port.record, &mut port.memory).first;
    let reserves: Vec<Call> = (0..streams).map(|stream| Call::Reserve { stream, permitted: permitted(share, stream) }).collect();
    after(port, &reserves)
}

/// A port with few streams, all at last with nothing left.
fn spent() -> Octets {
    let mut port = opened(FEW);
    for stream in 0..FEW.into() {
        port.record[layout::entry(stream) + layout::PLACE] = LAST;
        layout::put_two(&mut port.record, layout::entry(stream) + layout::LEFT, 0);
    }
    port
}

/// The port after calls.
fn after(mut port: Octets, calls: &[Call]) -> Octets {
    for call in calls {
        exports::call(&call.given(), &mut port.record, &mut port.memory);
    }
    port
}

/// The port with every stream bound and at last, and 256 frames in each queue, but a batch less in the one of this number, if there is one.
fn filled(port: Octets, pairs: Pairs, not_full: usize) -> Octets {
    let mut port = after(port, &binds(pairs));
    for stream in 0..STREAMS {
        port.record[layout::entry(stream) + layout::PLACE] = LAST;
    }
    let count = |queue: usize| if queue == not_full { QUEUE_PLACES - BATCH } else { QUEUE_PLACES };
    for queue in 0..QUEUES {
        fill(&mut port, queue, count(queue));
    }
    layout::put_four(&mut port.record, layout::WAITS, count(BEST_EFFORT) as u32 * LEAST_CHARGE);
    port
}

/// So many frames of the least charge in a queue, from a start in its middle, so that they wrap.
fn fill(port: &mut Octets, queue: usize, count: usize) {
    let start = QUEUE_PLACES / 2;
    layout::put_two(&mut port.record, layout::start(queue), start as u32);
    layout::put_two(&mut port.record, layout::count(queue), count as u32);
    for ahead in 0..count {
        let frame = layout::frame(queue, start, ahead);
        let stream = if queue == BEST_EFFORT { BEST_EFFORT_STREAM } else { (ahead % STREAMS) as u32 };
        layout::put_two(&mut port.memory, frame + layout::FRAME_STREAM, stream);
        layout::put_two(&mut port.memory, frame + layout::FRAME_CHARGE, LEAST_CHARGE);
    }
}
