//! For each clause of refusal 19 the smallest changes of a fit record that break it alone, at its boundary.

use crate::comparing::fit::{any_count, any_start, binding as stream_binding, Octets};
use crate::comparing::random::Random;
use crate::layout::{self, four, permitted_sum, put_four, put_two, two};
use crate::model::fitness::Clause;
use crate::model::port::{BEST_EFFORT, LARGEST_CHARGE, LEAST_PERMITTED, LINKS, QUEUES, QUEUE_PLACES, RESERVED_QUEUES, STREAMS, VIDS};

/// Where a breach stands and how far it goes.
struct Boundary {
    /// The queue or stream that is changed.
    site: usize,
    /// The number at the boundary, still fit.
    from: u32,
    /// What is added to it.
    by: i64,
}

/// A number of record or memory that is changed.
struct Change {
    in_memory: bool,
    at: usize,
    octets: usize,
    by: i64,
}

/// Brings a fit record to the boundary, where it is still fit, and says what to change.
type Prepare = fn(&mut Octets, &mut Random, &Boundary) -> Vec<Change>;

/// One way to break one clause.
pub struct Breach {
    pub name: &'static str,
    pub clause: Clause,
    /// It can stand at this many queues or streams.
    pub sites: usize,
    prepare: Prepare,
    from: u32,
    by: i64,
}

/// A row of the tables below.
const fn breach(name: &'static str, clause: Clause, sites: usize, prepare: Prepare, from: u32, by: i64) -> Breach {
    Breach { name, clause, sites, prepare, from, by }
}

/// Breaches of what the record says of prior and of the queues.
pub const OF_QUEUES: [Breach; 7] = [
    breach("prior 3 to 4", Clause::Prior, 1, prior, 3, 1),
    breach("prior 0 to 255", Clause::Prior, 1, prior, 0, 255),
    breach("start 255 to 256", Clause::Start, QUEUES, start, 255, 1),
    breach("start 255 to 65,535", Clause::Start, QUEUES, start, 255, 65_280),
    breach("count 256 to 257", Clause::Count, QUEUES, count, 256, 1),
    breach("count 0 to 512", Clause::Count, QUEUES, count, 0, 512),
    breach("count 255 to 65,535", Clause::Count, QUEUES, count, 255, 65_280),
];

/// Breaches of what the record says of a reserved stream.
pub const OF_STREAMS: [Breach; 9] = [
    breach("place 1 to 0", Clause::Place, STREAMS, place, 1, -1),
    breach("place 3 to 4", Clause::Place, STREAMS, place, 3, 1),
    breach("place 2 to 255", Clause::Place, STREAMS, place, 2, 253),
    breach("left 84 to 85 of P 84", Clause::Left, STREAMS, left, 84, 1),
    breach("left 21,504 to 21,505 of P 21,504", Clause::Left, STREAMS, left, 21_504, 1),
    breach("left 255 to 256 of P 255", Clause::Left, STREAMS, left, 255, 1),
    breach("draining count 4 to 5", Clause::Draining, STREAMS, draining, 4, 1),
    breach("draining count 0 to 5", Clause::Draining, STREAMS, draining, 0, 5),
    breach("draining count 1 to 255", Clause::Draining, STREAMS, draining, 1, 254),
];

/// Breaches of the bindings.
pub const OF_BINDINGS: [Breach; 15] = [
    breach("bindings apart in the VID's high octet made equal", Clause::BindingRepeats, STREAMS, binding, 0, 0),
    breach("bindings apart in the VID's low octet made equal", Clause::BindingRepeats, STREAMS, binding, 1, 0),
    breach("bindings apart in address octet 0 made equal", Clause::BindingRepeats, STREAMS, binding, 2, 0),
    breach("bindings apart in address octet 1 made equal", Clause::BindingRepeats, STREAMS, binding, 3, 0),
    breach("bindings apart in address octet 2 made equal", Clause::BindingRepeats, STREAMS, binding, 4, 0),
    breach("bindings apart in address octet 3 made equal", Clause::BindingRepeats, STREAMS, binding, 5, 0),
    breach("bindings apart in address octet 4 made equal", Clause::BindingRepeats, STREAMS, binding, 6, 0),
    breach("bindings apart in address octet 5 made equal", Clause::BindingRepeats, STREAMS, binding, 7, 0),
    breach("reserved mark of a bound stream 1 to 0", Clause::BindingUnreserved, STREAMS, reserved_of_bound, 1, -1),
    breach("reserved mark of a bound stream 1 to 255", Clause::BindingUnreserved, STREAMS, reserved_of_bound, 1, 254),
    breach("bound mark of an unreserved stream 0 to 1", Clause::BindingUnreserved, STREAMS, bound_of_unreserved, 0, 1),
    breach("bound mark of an unreserved stream 2 to 1", Clause::BindingUnreserved, STREAMS, bound_of_unreserved, 2, -1),
    breach("VID 1 to 0", Clause::BindingVid, STREAMS, vid, 1, -1),
    breach("VID 4,094 to 4,095", Clause::BindingVid, STREAMS, vid, 4_094, 1),
    breach("VID 1 to 4,097", Clause::BindingVid, STREAMS, vid, 1, 4_096),
];

/// Breaches of the waiting frames and of W.
pub const OF_FRAMES: [Breach; 15] = [
    breach("waiting stream 63 to 64", Clause::WaitingStream, RESERVED_QUEUES, waiting_stream, 63, 1),
    breach("waiting stream 63 to 255", Clause::WaitingStream, RESERVED_QUEUES, waiting_stream, 63, 192),
    breach("waiting stream 63 to 319", Clause::WaitingStream, RESERVED_QUEUES, waiting_stream, 63, 256),
    breach("best effort's stream 255 to 254", Clause::WaitingBestEffortStream, 1, waiting_best_effort_stream, 255, -1),
    breach("best effort's stream 255 to 256", Clause::WaitingBestEffortStream, 1, waiting_best_effort_stream, 255, 1),
    breach("best effort's stream 255 to 511", Clause::WaitingBestEffortStream, 1, waiting_best_effort_stream, 255, 256),
    breach("best effort's stream 255 to 0", Clause::WaitingBestEffortStream, 1, waiting_best_effort_stream, 255, -255),
    breach("waiting charge 84 to 83", Clause::WaitingCharge, QUEUES, waiting_charge, 84, -1),
    breach("waiting charge 2,020 to 2,021", Clause::WaitingCharge, QUEUES, waiting_charge, 2_020, 1),
    breach("waiting charge 84 to 0", Clause::WaitingCharge, QUEUES, waiting_charge, 84, -84),
    breach("waiting charge 255 to 65,535", Clause::WaitingCharge, QUEUES, waiting_charge, 255, 65_280),
    breach("W one more than the sum of any frames", Clause::Waits, 1, waits, 0, 1),
    breach("W one less than the sum of some frames", Clause::Waits, 1, waits, 1, -1),
    breach("W 65,536 more", Clause::Waits, 1, waits, 0, 65_536),
    breach("W 2^31 more", Clause::Waits, 1, waits, 0, 1 << 31),
];

/// Breaches of what is asked of an open port alone.
pub const OF_OPEN_PORTS: [Breach; 12] = [
    breach("L 2,104 to 2,103", Clause::Link, 1, link, 2_104, -1),
    breach("L 2,104 to 1,626", Clause::Link, 1, link, 2_104, -478),
    breach("L 23,524 to 23,525", Clause::Link, 1, link, 23_524, 1),
    breach("L 23,047 to 23,525", Clause::Link, 1, link, 23_047, 478),
    breach("K 1 to 0", Clause::Delay, 1, delay, 1, -1),
    breach("K 16 to 17", Clause::Delay, 1, delay, 16, 1),
    breach("K 16 to 255", Clause::Delay, 1, delay, 16, 239),
    breach("P 84 to 83", Clause::Permitted, STREAMS, permitted, 84, -1),
    breach("P 84 to 0", Clause::Permitted, STREAMS, permitted, 84, -84),
    breach("P sum from the share to one more", Clause::PermittedSum, STREAMS, permitted_fills_share, 84, 1),
    breach("share from the P sum to one less", Clause::PermittedSum, STREAMS, share_just_enough, 85, -1),
    breach("P sum 65,536 more", Clause::PermittedSum, STREAMS, two_permitted, 84, 32_768),
];

/// Every breach.
pub fn all() -> impl Iterator<Item = &'static Breach> {
    [&OF_QUEUES[..], &OF_STREAMS, &OF_BINDINGS, &OF_FRAMES, &OF_OPEN_PORTS].into_iter().flatten()
}

impl Breach {
    /// A record at the boundary and the same one past it, open or closed, with the change at a site.
    pub fn at_boundary_and_past(&self, random: &mut Random, open: bool, site: usize) -> (Octets, Octets) {
        let mut at_boundary = Octets::fit(random, open);
        let boundary = Boundary { site, from: self.from, by: self.by };
        let changes = (self.prepare)(&mut at_boundary, random, &boundary);
        let mut past = at_boundary.clone();
        for change in changes {
            change.make(&mut past);
        }
        (at_boundary, past)
    }

    /// The clauses that the changed record breaks: on a closed port none where the clause is asked of an open one alone.
    pub fn broken(&self, open: bool) -> Vec<Clause> {
        let of_open_port = [Clause::Link, Clause::Delay, Clause::Permitted, Clause::PermittedSum].contains(&self.clause);
        match of_open_port && !open {
            true => vec![],
            false => vec![self.clause],
        }
    }
}

impl Change {
    /// A change of a number of the record.
    fn record(at: usize, octets: usize, by: i64) -> Change {
        Change { in_memory: false, at, octets, by }
    }

    /// A change of a number of two octets of the memory.
    fn memory(at: usize, by: i64) -> Change {
        Change { in_memory: true, at, octets: 2, by }
    }

    /// Adds to the number.
    fn make(&self, octets: &mut Octets) {
        let slice = if self.in_memory { &mut octets.memory } else { &mut octets.record };
        let number = &mut slice[self.at..self.at + self.octets];
        let old = number.iter().fold(0, |high, &low| high << 8 | i64::from(low));
        let new = u32::try_from(old + self.by).expect("the changed number is none below 0").to_be_bytes();
        number.copy_from_slice(&new[new.len() - self.octets..]);
    }
}

/// Prior.
fn prior(port: &mut Octets, _: &mut Random, boundary: &Boundary) -> Vec<Change> {
    port.record[layout::PRIOR] = boundary.from as u8;
    vec![Change::record(layout::PRIOR, 1, boundary.by)]
}

/// The start of a queue.
fn start(port: &mut Octets, random: &mut Random, boundary: &Boundary) -> Vec<Change> {
    let count = any_count(random);
    port.put_queue(random, boundary.site, boundary.from as usize, count);
    vec![Change::record(layout::start(boundary.site), 2, boundary.by)]
}

/// The count of a queue.
fn count(port: &mut Octets, random: &mut Random, boundary: &Boundary) -> Vec<Change> {
    let start = any_start(random);
    port.put_queue(random, boundary.site, start, boundary.from as usize);
    vec![Change::record(layout::count(boundary.site), 2, boundary.by)]
}

/// The place of a reserved stream.
fn place(port: &mut Octets, random: &mut Random, boundary: &Boundary) -> Vec<Change> {
    reserve(port, random, &[boundary.site], LEAST_PERMITTED);
    let at = layout::entry(boundary.site) + layout::PLACE;
    port.record[at] = boundary.from as u8;
    vec![Change::record(at, 1, boundary.by)]
}

/// Left of a reserved stream, at the boundary all of P.
fn left(port: &mut Octets, random: &mut Random, boundary: &Boundary) -> Vec<Change> {
    reserve(port, random, &[boundary.site], boundary.from);
    let at = layout::entry(boundary.site) + layout::LEFT;
    put_two(&mut port.record, at, boundary.from);
    vec![Change::record(at, 2, boundary.by)]
}

/// The draining count of a reserved stream.
fn draining(port: &mut Octets, random: &mut Random, boundary: &Boundary) -> Vec<Change> {
    reserve(port, random, &[boundary.site], LEAST_PERMITTED);
    let at = layout::entry(boundary.site) + layout::DRAINING;
    port.record[at] = boundary.from as u8;
    vec![Change::record(at, 1, boundary.by)]
}

/// One octet of a binding, which becomes that of another stream's binding, equal but for it.
fn binding(port: &mut Octets, random: &mut Random, boundary: &Boundary) -> Vec<Change> {
    let octet = boundary.from as usize;
    let other = (boundary.site + random.between(1..=STREAMS as u32 - 1) as usize) % STREAMS;
    reserve(port, random, &[boundary.site, other], LEAST_PERMITTED);
    put_any_binding(port, random, boundary.site);
    let one = stream_binding(&port.record, boundary.site);
    let mut apart = one;
    while apart == one {
        put_any_binding(port, random, other);
        apart[octet] = stream_binding(&port.record, other)[octet];
    }
    port.put_binding(other, &apart);
    let at = layout::entry(boundary.site) + layout::VID + octet;
    vec![Change::record(at, 1, i64::from(apart[octet]) - i64::from(one[octet]))]
}

/// The reserved mark of a bound stream.
fn reserved_of_bound(port: &mut Octets, random: &mut Random, boundary: &Boundary) -> Vec<Change> {
    reserve(port, random, &[boundary.site], LEAST_PERMITTED);
    put_any_binding(port, random, boundary.site);
    vec![Change::record(layout::entry(boundary.site) + layout::RESERVED, 1, boundary.by)]
}

/// The bound mark of an unreserved stream.
fn bound_of_unreserved(port: &mut Octets, random: &mut Random, boundary: &Boundary) -> Vec<Change> {
    port.put_unreserved(random, boundary.site);
    let at = layout::entry(boundary.site) + layout::BOUND;
    port.record[at] = boundary.from as u8;
    vec![Change::record(at, 1, boundary.by)]
}

/// The VID of a bound stream.
fn vid(port: &mut Octets, random: &mut Random, boundary: &Boundary) -> Vec<Change> {
    reserve(port, random, &[boundary.site], LEAST_PERMITTED);
    put_any_binding(port, random, boundary.site);
    let at = layout::entry(boundary.site) + layout::VID;
    put_two(&mut port.record, at, boundary.from);
    vec![Change::record(at, 2, boundary.by)]
}

/// The stream of a frame that waits in a queue of reserved traffic.
fn waiting_stream(port: &mut Octets, random: &mut Random, boundary: &Boundary) -> Vec<Change> {
    let at = waiting_frame(port, random, boundary.site) + layout::FRAME_STREAM;
    put_two(&mut port.memory, at, boundary.from);
    vec![Change::memory(at, boundary.by)]
}

/// The stream of a frame that waits in best effort.
fn waiting_best_effort_stream(port: &mut Octets, random: &mut Random, boundary: &Boundary) -> Vec<Change> {
    waiting_stream(port, random, &Boundary { site: BEST_EFFORT, ..*boundary })
}

/// The charge of a waiting frame; in best effort W stays the sum.
fn waiting_charge(port: &mut Octets, random: &mut Random, boundary: &Boundary) -> Vec<Change> {
    let at = waiting_frame(port, random, boundary.site) + layout::FRAME_CHARGE;
    let before = two(&port.memory, at);
    put_two(&mut port.memory, at, boundary.from);
    if boundary.site != BEST_EFFORT {
        return vec![Change::memory(at, boundary.by)];
    }
    let waits = four(&port.record, layout::WAITS) - before + boundary.from;
    put_four(&mut port.record, layout::WAITS, waits);
    vec![Change::memory(at, boundary.by), Change::record(layout::WAITS, 4, boundary.by)]
}

/// W, with at least so many frames in best effort as the boundary says.
fn waits(port: &mut Octets, random: &mut Random, boundary: &Boundary) -> Vec<Change> {
    let (start, count) = (any_start(random), any_count(random).max(boundary.from as usize));
    port.put_queue(random, BEST_EFFORT, start, count);
    vec![Change::record(layout::WAITS, 4, boundary.by)]
}

/// L, with no more reservations than its share holds.
fn link(port: &mut Octets, random: &mut Random, boundary: &Boundary) -> Vec<Change> {
    put_two(&mut port.record, layout::LINK, boundary.from);
    make_room(port, random, boundary.from - LARGEST_CHARGE);
    vec![Change::record(layout::LINK, 2, boundary.by)]
}

/// K.
fn delay(port: &mut Octets, _: &mut Random, boundary: &Boundary) -> Vec<Change> {
    port.record[layout::DELAY] = boundary.from as u8;
    vec![Change::record(layout::DELAY, 1, boundary.by)]
}

/// P of a reserved stream, whose left is no more than P will be.
fn permitted(port: &mut Octets, random: &mut Random, boundary: &Boundary) -> Vec<Change> {
    reserve(port, random, &[boundary.site], boundary.from);
    let at = layout::entry(boundary.site);
    let most_left = boundary.from.wrapping_add_signed(boundary.by as i32);
    put_two(&mut port.record, at + layout::LEFT, random.between(0..=most_left));
    vec![Change::record(at + layout::PERMITTED, 2, boundary.by)]
}

/// P of a reserved stream where the P's just fill the share.
fn permitted_fills_share(port: &mut Octets, random: &mut Random, boundary: &Boundary) -> Vec<Change> {
    share_just_enough(port, random, boundary);
    vec![Change::record(layout::entry(boundary.site) + layout::PERMITTED, 2, boundary.by)]
}

/// L where the P's just fill the share.
fn share_just_enough(port: &mut Octets, random: &mut Random, boundary: &Boundary) -> Vec<Change> {
    reserve(port, random, &[boundary.site], boundary.from);
    let filled = (permitted_sum(&port.record) + LARGEST_CHARGE).min(*LINKS.end());
    put_two(&mut port.record, layout::LINK, filled);
    vec![Change::record(layout::LINK, 2, boundary.by)]
}

/// The P's of two reserved streams.
fn two_permitted(port: &mut Octets, random: &mut Random, boundary: &Boundary) -> Vec<Change> {
    let other = (boundary.site + STREAMS / 2) % STREAMS;
    reserve(port, random, &[boundary.site, other], boundary.from);
    let change = |stream| Change::record(layout::entry(stream) + layout::PERMITTED, 2, boundary.by);
    vec![change(boundary.site), change(other)]
}

/// Reserves streams with P, all other reservations kept that the share still holds; on an open port L is raised if it is too small.
fn reserve(port: &mut Octets, random: &mut Random, streams: &[usize], permitted: u32) {
    for &stream in streams {
        port.put_unreserved(random, stream);
    }
    let needed = permitted * streams.len() as u32;
    if port.is_open() {
        let link = two(&port.record, layout::LINK).max(LARGEST_CHARGE + needed);
        put_two(&mut port.record, layout::LINK, link);
        make_room(port, random, link - LARGEST_CHARGE - needed);
    }
    for &stream in streams {
        port.put_reserved(random, stream, permitted);
    }
}

/// Drops reservations of an open port, any, until their sum is no more than a number.
fn make_room(port: &mut Octets, random: &mut Random, most: u32) {
    let mut streams = random.shuffled(STREAMS).into_iter();
    while port.is_open() && permitted_sum(&port.record) > most {
        port.put_unreserved(random, streams.next().expect("no reservations have no sum"));
    }
}

/// Where a frame stands that waits in a queue with any start: its oldest, its youngest or any.
fn waiting_frame(port: &mut Octets, random: &mut Random, queue: usize) -> usize {
    let (start, count) = (any_start(random), any_count(random).clamp(1, QUEUE_PLACES));
    port.put_queue(random, queue, start, count);
    let any = random.below(count);
    layout::frame(queue, start, random.pick(&[0, count - 1, any]))
}

/// Binds a stream to a pair whose VID stays in its range whichever of its two octets is another such VID's.
fn put_any_binding(port: &mut Octets, random: &mut Random, stream: usize) {
    let mut binding = [0; layout::BINDING_END - layout::VID];
    random.fill(&mut binding);
    binding[0] = random.between(0..=*VIDS.end() >> 8) as u8;
    binding[1] = random.between(1..=254) as u8;
    port.put_binding(stream, &binding);
}
