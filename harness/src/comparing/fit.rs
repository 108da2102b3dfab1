//! Random records that are fit, each with its memory: open or closed, with content that no list from an opening reaches.

use crate::comparing::counts::any_choice;
use crate::comparing::random::Random;
use crate::layout::{self, put_four, put_two, two};
use crate::model::octets::{MEMORY_OCTETS, PORT_OCTETS};
use crate::model::port::{
    share, BEST_EFFORT, BEST_EFFORT_STREAM, CHARGES, CURRENT, DELAYS, DRAINING_TICKS, LAST, LEAST_PERMITTED, LINKS, MARK_YES, NOT_DRAINING,
    QUEUES, QUEUE_PLACES, RESERVED_QUEUES, STREAMS, VIDS,
};

/// VID and address of a stream, as they stand in its entry.
pub type Binding = [u8; layout::BINDING_END - layout::VID];

/// The octets of a port, record and register block, as they are lent, and of its memory.
#[derive(Clone, PartialEq, Eq)]
pub struct Octets {
    pub record: Vec<u8>,
    pub memory: Vec<u8>,
}

impl Octets {
    /// All octets zero: a closed port.
    pub fn zero() -> Octets {
        Octets { record: vec![0; PORT_OCTETS], memory: vec![0; MEMORY_OCTETS] }
    }

    /// Any octets.
    pub fn any(random: &mut Random) -> Octets {
        let mut octets = Octets::zero();
        random.fill(&mut octets.record);
        random.fill(&mut octets.memory);
        octets
    }

    /// A fit record, open or closed; what the port does not hold is any octet.
    pub fn fit(random: &mut Random, open: bool) -> Octets {
        let mut octets = Octets::any(random);
        octets.put_head(random, open);
        for queue in 0..QUEUES {
            let (start, count) = (any_start(random), any_count(random));
            octets.put_queue(random, queue, start, count);
        }
        octets.put_streams(random, open);
        octets.put_block(random);
        octets
    }

    /// Gives the register block any content: marks of flags that are up, down or neither, any mask, any choice, most often of a stream, and counts at
    /// their end, near it or anywhere.
    pub fn put_block(&mut self, random: &mut Random) {
        for at in [layout::FLAG_DISCARD, layout::FLAG_PURGE, layout::FLAG_NOTHING] {
            self.record[layout::in_block(at)] = if random.chance(50) { MARK_YES } else { no_mark(random) };
        }
        let (any, bit) = (random.number(), 1 << random.below(3));
        put_four(&mut self.record, layout::in_block(layout::BLOCK_MASK), random.pick(&[0, bit, 7, 8, u32::MAX, any]));
        let choice = any_choice(random, &self.record);
        put_four(&mut self.record, layout::in_block(layout::CHOICE), choice);
        let of_streams = (0..STREAMS).flat_map(|stream| [layout::ACCEPTED, layout::DISCARDED].map(|count| layout::counts(stream) + count));
        for at in of_streams.chain([layout::SENT]) {
            let any = random.number();
            put_four(&mut self.record, layout::in_block(at), random.pick(&[0, u32::MAX, u32::MAX - 1, u32::from(u16::MAX), any, any]));
        }
    }

    /// Whether the port is open.
    pub fn is_open(&self) -> bool {
        self.record[layout::OPEN] == MARK_YES
    }

    /// Writes the open mark, prior, K and L; those of a closed port need not be in their ranges.
    fn put_head(&mut self, random: &mut Random, open: bool) {
        self.record[layout::OPEN] = if open { MARK_YES } else { no_mark(random) };
        self.record[layout::PRIOR] = random.below(RESERVED_QUEUES) as u8;
        if open || random.chance(30) {
            let link = [*LINKS.start(), *LINKS.end(), random.between(LINKS), random.between(LINKS)];
            let delay = [*DELAYS.start(), *DELAYS.end(), random.between(DELAYS)];
            put_two(&mut self.record, layout::LINK, random.pick(&link));
            self.record[layout::DELAY] = random.pick(&delay) as u8;
        }
    }

    /// Gives a queue a start, a count and fit frames that wait; in best effort W becomes their sum.
    pub fn put_queue(&mut self, random: &mut Random, queue: usize, start: usize, count: usize) {
        put_two(&mut self.record, layout::start(queue), start as u32);
        put_two(&mut self.record, layout::count(queue), count as u32);
        let mut sum = 0;
        for ahead in 0..count {
            let at = layout::frame(queue, start, ahead);
            let charge = any_charge(random);
            put_two(&mut self.memory, at + layout::FRAME_STREAM, waiting_stream(random, queue));
            put_two(&mut self.memory, at + layout::FRAME_CHARGE, charge);
            put_four(&mut self.memory, at + layout::FRAME_TAG, random.number());
            sum += charge;
        }
        if queue == BEST_EFFORT {
            put_four(&mut self.record, layout::WAITS, sum);
        }
    }

    /// Reserves any number of any streams, and binds some of them; of most records none drains, of others some do.
    fn put_streams(&mut self, random: &mut Random, open: bool) {
        for stream in 0..STREAMS {
            self.put_unreserved(random, stream);
        }
        let permitted = if open { self.permitted_of_open(random) } else { permitted_of_closed(random) };
        let (bound, draining) = (random.pick(&[0, 50, 97, 100]), random.pick(&[0, 0, 0, 20, 60]));
        for (stream, permitted) in random.shuffled(STREAMS).into_iter().zip(permitted) {
            self.put_reserved(random, stream, permitted);
            if random.chance(bound) {
                self.bind(random, stream);
            }
            if random.chance(draining) {
                self.record[layout::entry(stream) + layout::DRAINING] = any_draining(random);
            }
        }
    }

    /// The P's of an open port's reserved streams: their sum just fills the share or is less.
    fn permitted_of_open(&self, random: &mut Random) -> Vec<u32> {
        let share = share(two(&self.record, layout::LINK));
        let most = (share / LEAST_PERMITTED).min(STREAMS as u32);
        let reserved = random.between(0..=most);
        let reserved = random.pick(&[reserved.min(3), reserved, most]) as usize;
        let mut free = share - LEAST_PERMITTED * reserved as u32;
        let part = random.pick(&[1, 2, 16]);
        let mut permitted = Vec::new();
        for _ in 0..reserved {
            let more = random.between(0..=free / part);
            permitted.push(LEAST_PERMITTED + more);
            free -= more;
        }
        if let Some(last) = permitted.last_mut().filter(|_| random.chance(50)) {
            *last += free;
        }
        permitted
    }

    /// Makes a stream reserved with P, at any place, with any left up to P, not draining and not bound.
    pub fn put_reserved(&mut self, random: &mut Random, stream: usize, permitted: u32) {
        let at = layout::entry(stream);
        let left = [0, permitted, random.between(0..=permitted)];
        self.record[at + layout::RESERVED] = MARK_YES;
        self.record[at + layout::PLACE] = random.between(u32::from(CURRENT)..=u32::from(LAST)) as u8;
        put_two(&mut self.record, at + layout::LEFT, random.pick(&left));
        put_two(&mut self.record, at + layout::PERMITTED, permitted);
        self.record[at + layout::DRAINING] = NOT_DRAINING;
        self.record[at + layout::BOUND] = no_mark(random);
    }

    /// Makes a stream neither reserved nor bound; the rest of its entry stays what it is.
    pub fn put_unreserved(&mut self, random: &mut Random, stream: usize) {
        let at = layout::entry(stream);
        self.record[at + layout::RESERVED] = no_mark(random);
        self.record[at + layout::BOUND] = no_mark(random);
    }

    /// Binds a reserved stream to a pair that no bound stream has.
    pub fn bind(&mut self, random: &mut Random, stream: usize) {
        let bindings = bindings(&self.record);
        let mut binding = any_binding(random, &bindings);
        while bindings.contains(&binding) {
            binding = any_binding(random, &bindings);
        }
        self.put_binding(stream, &binding);
    }

    /// Binds a stream to a pair.
    pub fn put_binding(&mut self, stream: usize, binding: &Binding) {
        let at = layout::entry(stream);
        self.record[at + layout::BOUND] = MARK_YES;
        self.record[at + layout::VID..at + layout::BINDING_END].copy_from_slice(binding);
    }
}

/// Whether a record says that a stream is bound.
pub fn is_bound(record: &[u8], stream: usize) -> bool {
    record[layout::entry(stream) + layout::BOUND] == MARK_YES
}

/// The pairs of the streams that a record says are bound.
pub fn bindings(record: &[u8]) -> Vec<Binding> {
    (0..STREAMS).filter(|&stream| is_bound(record, stream)).map(|stream| binding(record, stream)).collect()
}

/// VID and address in the entry of a stream.
pub fn binding(record: &[u8], stream: usize) -> Binding {
    let at = layout::entry(stream);
    record[at + layout::VID..at + layout::BINDING_END].try_into().expect("a binding has eight octets")
}

/// A mark that says no: any octet but 1.
pub fn no_mark(random: &mut Random) -> u8 {
    let other = random.other_octet(MARK_YES);
    random.pick(&[0, 2, 255, other])
}

/// The draining count of a stream that drains, any.
fn any_draining(random: &mut Random) -> u8 {
    random.between(1..=u32::from(DRAINING_TICKS)) as u8
}

/// The start of a queue, anywhere, its ends more often.
pub fn any_start(random: &mut Random) -> usize {
    let start = random.below(QUEUE_PLACES);
    random.pick(&[0, QUEUE_PLACES - 1, start, start])
}

/// How many frames wait: none, few, any number, one less than all, or all.
pub fn any_count(random: &mut Random) -> usize {
    let (few, any) = (random.below(4), random.below(QUEUE_PLACES));
    random.pick(&[0, 0, few, few, few, any, QUEUE_PLACES - 1, QUEUE_PLACES])
}

/// A charge in its range, the ends more often.
fn any_charge(random: &mut Random) -> u32 {
    let charge = random.between(CHARGES);
    random.pick(&[*CHARGES.start(), *CHARGES.end(), charge, charge])
}

/// The stream of a frame that waits in a queue: reserved or not, or 255 in best effort.
fn waiting_stream(random: &mut Random, queue: usize) -> u32 {
    if queue == BEST_EFFORT {
        return BEST_EFFORT_STREAM;
    }
    random.below(STREAMS) as u32
}

/// The P's of a closed port's reserved streams: anything that two octets hold.
fn permitted_of_closed(random: &mut Random) -> Vec<u32> {
    let few = random.below(4);
    let reserved = random.pick(&[few, STREAMS / 2, STREAMS]);
    let ends = [0, LEAST_PERMITTED - 1, LEAST_PERMITTED, u32::from(u16::MAX)];
    (0..reserved).map(|_| if random.chance(20) { random.pick(&ends) } else { random.number() >> 16 }).collect()
}

/// A pair: anything, or another stream's with another VID or with one octet of the address changed.
pub fn any_binding(random: &mut Random, others: &[Binding]) -> Binding {
    let mut binding = Binding::default();
    if others.is_empty() || random.chance(20) {
        random.fill(&mut binding);
        put_vid(random, &mut binding);
        return binding;
    }
    binding = random.pick(others);
    if random.chance(40) {
        put_vid(random, &mut binding);
    } else {
        let at = layout::ADDRESS - layout::VID + random.below(layout::BINDING_END - layout::ADDRESS);
        binding[at] = random.other_octet(binding[at]);
    }
    binding
}

/// Gives a pair any VID in its range, the ends more often.
fn put_vid(random: &mut Random, binding: &mut Binding) {
    let vid = random.between(VIDS);
    put_two(binding, 0, random.pick(&[*VIDS.start(), *VIDS.end(), vid]));
}
