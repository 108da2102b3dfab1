//! Calls with chosen arguments: near what the record holds, or at the ends of their ranges and outside them. The ends stand here as numbers of
//! documents 01 and 02, not as the model's, so that a wrong end of the model's shows.

use std::ops::RangeInclusive;

use crate::call::Call;
use crate::comparing::compared::Step;
use crate::comparing::counts::any_question;
use crate::comparing::fit::no_mark;
use crate::comparing::lookups::any_lookup;
use crate::comparing::random::Random;
use crate::comparing::registers::{any_read, any_write};
use crate::layout::{self, best_effort_limit, is_draining, is_reserved, permitted_sum, two, waits_with};
use crate::model::octets::RECORD_OCTETS;
use crate::model::port::{CHARGES, DELAYS, LARGEST_CHARGE, LEAST_CHARGE, LEAST_PERMITTED, LINKS, MARK_YES, STREAMS};

/// Where a number of 16 bits starts over.
pub const OVER_TWO_OCTETS: u32 = 1 << 16;
/// Where a number of 8 bits starts over.
pub const OVER_AN_OCTET: u32 = 1 << 8;

/// L at the ends of its range and outside it, also where fewer bits would hide that, and at the ends that a largest charge of 1,542 would give it.
const EDGE_LINKS: [u32; 12] = [0, 1_626, 2_019, 2_020, 2_103, 2_104, 23_046, 23_047, 23_524, 23_525, OVER_TWO_OCTETS + 2_620, u32::MAX];
/// K at the ends of its range and outside it.
const EDGE_DELAYS: [u32; 7] = [0, 1, 16, 17, OVER_AN_OCTET + 1, OVER_TWO_OCTETS + 1, u32::MAX];
/// P at the lower end of its range and below it, and above every share.
const EDGE_PERMITTED: [u32; 7] = [0, 83, 84, 21_505, OVER_TWO_OCTETS, OVER_TWO_OCTETS + 84, u32::MAX];
/// Charges at the ends of their range and outside it, and on both sides of 1,542, that of a frame of 1,518 octets.
const EDGE_CHARGES: [u32; 10] = [0, 83, 84, 1_542, 1_543, 2_020, 2_021, OVER_TWO_OCTETS - 1, OVER_TWO_OCTETS + 84, u32::MAX];
/// The last stream, and the ends of the streams that there are not.
const EDGE_STREAMS: [u8; 5] = [63, 64, 65, 254, 255];

/// How often each step of a list is taken.
#[derive(Clone, Copy)]
pub struct Weights {
    pub open: usize,
    pub reserve: usize,
    pub arrive: usize,
    pub tick: usize,
    pub transmit: usize,
    pub best_effort: usize,
    pub bind: usize,
    pub frame: usize,
    pub withdraw: usize,
    pub read_register: usize,
    pub write_register: usize,
    /// The host writes the open mark.
    pub close: usize,
}

/// No step at all, for lists that take only some.
pub const NEVER: Weights = Weights {
    open: 0,
    reserve: 0,
    arrive: 0,
    tick: 0,
    transmit: 0,
    best_effort: 0,
    bind: 0,
    frame: 0,
    withdraw: 0,
    read_register: 0,
    write_register: 0,
    close: 0,
};

/// Which P a Reserve asks for.
#[derive(Clone, Copy)]
pub enum Permitted {
    /// Any up to a number.
    UpTo(u32),
    /// About what is still free of the share.
    NearFree,
    /// A part of what is free that leaves some to every other stream, and now and then all of it or one more.
    Parts,
    /// One number.
    Exactly(u32),
}

/// Which charges an Arrive or a Best effort brings.
#[derive(Clone, Copy)]
pub enum Charges {
    /// About what is left at the stream's place, or up to the limit of best effort.
    NearLeft,
    /// The least.
    Least,
}

/// What the steps of a list are like.
#[derive(Clone)]
pub struct Profile {
    pub weights: Weights,
    /// The calls name streams from this number on, and below the next.
    pub first: usize,
    pub streams: usize,
    /// The L of an Open.
    pub links: RangeInclusive<u32>,
    pub permitted: Permitted,
    pub charges: Charges,
    /// How many calls in a hundred have arguments at the ends of their ranges or outside them.
    pub edges: usize,
}

/// An ordinary profile: every stream and L, charges and P's that press what is left and free, and all calls alike.
pub const ORDINARY: Profile = Profile {
    weights: Weights {
        open: 1,
        reserve: 1,
        arrive: 1,
        tick: 1,
        transmit: 1,
        best_effort: 1,
        bind: 1,
        frame: 1,
        withdraw: 1,
        read_register: 1,
        write_register: 1,
        close: 0,
    },
    first: 0,
    streams: STREAMS,
    links: LINKS,
    permitted: Permitted::NearFree,
    charges: Charges::NearLeft,
    edges: 0,
};

/// Each of the nine calls, each access to a register, the lookup and the question for a stream's counts, with good and bad arguments, to be tried on
/// a port of any length and content.
pub fn each_call(random: &mut Random, record: &[u8]) -> Vec<Call> {
    let zeros = [0; RECORD_OCTETS];
    let record = if record.len() < RECORD_OCTETS { &zeros } else { record };
    [&each_of_traffic(random, record)[..], &each_access(random, record)].concat()
}

/// Each of the nine calls, with good and bad arguments.
fn each_of_traffic(random: &mut Random, record: &[u8]) -> [Call; 22] {
    let profile = ORDINARY;
    [
        profile.open(random, false),
        profile.open(random, true),
        profile.reserve(random, record, false),
        profile.reserve(random, record, false),
        profile.reserve(random, record, true),
        profile.arrive(random, record, false),
        profile.arrive(random, record, false),
        profile.arrive(random, record, true),
        Call::Tick,
        Call::Transmit,
        profile.best_effort(random, record, false),
        profile.best_effort(random, record, false),
        profile.best_effort(random, record, true),
        profile.bind(random, record, false),
        profile.bind(random, record, true),
        profile.frame(random, record, false),
        profile.frame(random, record, false),
        profile.frame(random, record, false),
        profile.frame(random, record, true),
        profile.withdraw(random, record, false),
        profile.withdraw(random, record, false),
        profile.withdraw(random, record, true),
    ]
}

/// Each access to a register, the lookup and the question for a stream's counts, with good and bad arguments.
fn each_access(random: &mut Random, record: &[u8]) -> [Call; 13] {
    [
        any_read(random, false),
        any_read(random, false),
        any_read(random, true),
        any_write(random, record, false),
        any_write(random, record, false),
        any_write(random, record, false),
        any_write(random, record, true),
        any_lookup(random, record, false),
        any_lookup(random, record, false),
        any_lookup(random, record, true),
        any_question(random, false),
        any_question(random, false),
        any_question(random, true),
    ]
}

impl Profile {
    /// The next step of a list; on a closed port it is most often an Open.
    pub fn step(&self, random: &mut Random, record: &[u8]) -> Step {
        let edge = random.chance(self.edges);
        if record[layout::OPEN] != MARK_YES && random.chance(60) {
            return Step::Call(self.open(random, edge));
        }
        let Weights { open, reserve, arrive, tick, transmit, best_effort, bind, frame, withdraw, .. } = self.weights;
        let Weights { read_register, write_register, close, .. } = self.weights;
        let of_traffic = [open, reserve, arrive, tick, transmit, best_effort, bind, frame, withdraw];
        Step::Call(match random.weighted(&[&of_traffic[..], &[read_register, write_register, close]].concat()) {
            0 => self.open(random, edge),
            1 => self.reserve(random, record, edge),
            2 => self.arrive(random, record, edge),
            3 => Call::Tick,
            4 => Call::Transmit,
            5 => self.best_effort(random, record, edge),
            6 => self.bind(random, record, edge),
            7 => self.frame(random, record, edge),
            8 => self.withdraw(random, record, edge),
            9 => any_read(random, edge),
            10 => any_write(random, record, edge),
            _ => return Step::HostWrites { at: layout::OPEN, octet: no_mark(random) },
        })
    }

    /// An Open; one at an edge has one of its arguments, or both, at an end or outside.
    pub fn open(&self, random: &mut Random, edge: bool) -> Call {
        let link = if edge && random.chance(50) { random.pick(&EDGE_LINKS) } else { self.any_link(random) };
        let delay = if edge && random.chance(50) { random.pick(&EDGE_DELAYS) } else { any_delay(random) };
        Call::Open { link, delay }
    }

    /// An L in this profile's range, the ends more often.
    fn any_link(&self, random: &mut Random) -> u32 {
        let link = random.between(self.links.clone());
        random.pick(&[*self.links.start(), *self.links.end(), link, link])
    }

    /// A Reserve, most often of a stream that is not reserved.
    fn reserve(&self, random: &mut Random, record: &[u8], edge: bool) -> Call {
        let reserved = edge && random.chance(30);
        let stream = if edge && random.chance(30) { edge_stream(random, record) } else { self.stream(random, record, reserved) };
        let permitted = if edge && random.chance(60) { edge_permitted(random, record) } else { self.any_permitted(random, record) };
        Call::Reserve { stream, permitted }
    }

    /// A Withdraw, most often of a stream that is reserved and does not drain; one at an edge has its stream there, or any.
    fn withdraw(&self, random: &mut Random, record: &[u8], edge: bool) -> Call {
        let any = self.any_stream(random);
        let taking = |stream: &usize| is_reserved(record, *stream) && !is_draining(record, *stream);
        let stream = (any..self.streams).chain(self.first..any).find(taking).unwrap_or(any) as u8;
        if edge && random.chance(50) {
            return Call::Withdraw { stream: edge_stream(random, record) };
        }
        Call::Withdraw { stream: if edge || random.chance(15) { any as u8 } else { stream } }
    }

    /// A P of this profile.
    fn any_permitted(&self, random: &mut Random, record: &[u8]) -> u32 {
        let free = two(record, layout::LINK).saturating_sub(LARGEST_CHARGE + permitted_sum(record));
        let up_to = |most: u32| LEAST_PERMITTED..=most.max(LEAST_PERMITTED);
        match self.permitted {
            Permitted::Exactly(permitted) => permitted,
            Permitted::UpTo(most) => random.between(up_to(most)),
            Permitted::NearFree => {
                let (some, small) = (random.between(up_to(free)), *up_to(free / 8).end());
                random.pick(&[LEAST_PERMITTED, LEAST_PERMITTED, small, small, some, *up_to(free).end(), free + 1])
            }
            Permitted::Parts => {
                let others = (0..STREAMS).filter(|&stream| !is_reserved(record, stream)).count() as u32;
                match random.chance(98) {
                    true => random.between(up_to(free / others.max(1))),
                    false => random.pick(&[free, free + 1]),
                }
            }
        }
    }

    /// An Arrive, most often on a stream that is reserved.
    fn arrive(&self, random: &mut Random, record: &[u8], edge: bool) -> Call {
        let stream = if edge && random.chance(30) { edge_stream(random, record) } else { self.stream(random, record, true) };
        let charge = if edge && random.chance(60) { random.pick(&EDGE_CHARGES) } else { self.any_charge(random, record, stream) };
        Call::Arrive { stream, charge, tag: any_tag(random) }
    }

    /// A Best effort; one at an edge has its charge at an end or outside.
    fn best_effort(&self, random: &mut Random, record: &[u8], edge: bool) -> Call {
        let charge = if edge { random.pick(&EDGE_CHARGES) } else { self.any_best_effort(random, record) };
        Call::BestEffort { charge, tag: any_tag(random) }
    }

    /// A best-effort charge of this profile: what the limit still allows, one octet more or less than that, or any.
    pub fn any_best_effort(&self, random: &mut Random, record: &[u8]) -> u32 {
        let Charges::NearLeft = self.charges else { return LEAST_CHARGE };
        let any = random.between(CHARGES);
        let free = best_effort_limit(record).saturating_sub(waits_with(record, 0)).min(u64::from(LARGEST_CHARGE)) as u32;
        let charge = random.pick(&[free, free, free + 1, free.saturating_sub(1), LEAST_CHARGE, LARGEST_CHARGE, any, any]);
        charge.clamp(LEAST_CHARGE, LARGEST_CHARGE)
    }

    /// A charge of this profile.
    pub fn any_charge(&self, random: &mut Random, record: &[u8], stream: u8) -> u32 {
        let Charges::NearLeft = self.charges else { return LEAST_CHARGE };
        let at = layout::entry(usize::from(stream) % STREAMS);
        let (left, permitted) = (two(record, at + layout::LEFT), two(record, at + layout::PERMITTED));
        let (any, less) = (random.between(CHARGES), left.saturating_sub(LEAST_CHARGE));
        let charge = random.pick(&[left, left, left + 1, less, permitted, permitted + 1, LEAST_CHARGE, any, any]);
        charge.clamp(LEAST_CHARGE, LARGEST_CHARGE)
    }

    /// Any stream of this profile.
    fn any_stream(&self, random: &mut Random) -> usize {
        self.first + random.below(self.streams - self.first)
    }

    /// A stream of this profile, most often the next one from any on that is reserved or not, as asked.
    fn stream(&self, random: &mut Random, record: &[u8], reserved: bool) -> u8 {
        let any = self.any_stream(random);
        let asked = |stream: &usize| is_reserved(record, *stream) == reserved;
        let mut from_any_on = (any..self.streams).chain(self.first..any);
        if random.chance(90) {
            return from_any_on.find(asked).unwrap_or(any) as u8;
        }
        any as u8
    }
}

/// A K in its range, the ends more often.
fn any_delay(random: &mut Random) -> u32 {
    let delay = random.between(DELAYS);
    random.pick(&[*DELAYS.start(), *DELAYS.end(), delay])
}

/// A tag, its ends more often.
pub fn any_tag(random: &mut Random) -> u32 {
    let tag = random.number();
    random.pick(&[0, u32::MAX, tag, tag, tag])
}

/// The last stream, or one that there is not: any, or one whose low six bits are those of a draining stream.
pub fn edge_stream(random: &mut Random, record: &[u8]) -> u8 {
    let any = random.between(STREAMS as u32..=u32::from(u8::MAX)) as u8;
    let end = random.pick(&EDGE_STREAMS);
    let from = random.below(STREAMS);
    let draining = (from..STREAMS).chain(0..from).find(|&stream| is_draining(record, stream));
    let beside = draining.map_or(any, |stream| (stream + STREAMS * random.between(1..=3) as usize) as u8);
    random.pick(&[any, end, beside])
}

/// A P at the end of its range, below it or above every share, also one that makes the sum of P start over at 16 or 32 bits.
fn edge_permitted(random: &mut Random, record: &[u8]) -> u32 {
    let sum = permitted_sum(record);
    let end = random.pick(&EDGE_PERMITTED);
    random.pick(&[end, end, end, OVER_TWO_OCTETS.saturating_sub(sum), 0_u32.wrapping_sub(sum)])
}
