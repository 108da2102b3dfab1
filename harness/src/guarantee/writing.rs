//! Lists that are hard for demand 3: reservations that fill the share, streams that offer all that they may beside streams that offer more, and a
//! link that serves just enough or one frame less. A writer looks into the record and memory to know what is left and what waits. Now and then it asks
//! for the counts of a stream or chooses it and reads them, and at the end it asks for those of every stream.

use std::ops::RangeInclusive;

use crate::call::{Call, ADDRESS_OCTETS};
use crate::comparing::calls::{Profile, ORDINARY};
use crate::comparing::compared::Step;
use crate::comparing::fit::Octets;
use crate::comparing::frames::{any_header, any_untagged, arrival, arrival_of};
use crate::comparing::random::Random;
use crate::comparing::registers::{any_read, ACCEPTED, CHOICE, DISCARDED};
use crate::comparing::sides::Play;
use crate::guarantee::becoming::{by_control, made, one_by_one};
use crate::guarantee::list::{Event, Playing};
use crate::layout::{self, two};
use crate::model::port::{
    CHARGES, CURRENT, DELAYS, LARGEST_CHARGE, LAST, LEAST_CHARGE, LEAST_PERMITTED, LINKS, QUEUES, QUEUE_PLACES, RESERVED_QUEUES, STREAMS,
};

/// How many reserved streams in a hundred are bound, and how many arrivals in a hundred on a bound stream are Frames.
const BOUND: usize = 75;
const FRAMES: usize = 60;
/// After how many arrivals in a hundred the counts of their stream are asked for, and after how many the stream is chosen and its counts are read.
const ASKED: usize = 10;
const CHOSEN: usize = 2;

/// How the link serves a port before a tick.
#[derive(Clone, Copy, PartialEq, Eq)]
pub enum Service {
    /// Until the reserved octets sent are the share or just above it; where too few wait, until a transmit sends no reserved frame.
    Share,
    /// Until a transmit sends no reserved frame.
    Idle,
    /// As long as the reserved octets sent stay below the share, so that one frame more would make them the share or more.
    OneFrameShort,
    /// Any number of transmits.
    Any,
    /// Not at all, as it may before the first tick.
    Withheld,
}

/// What a list is like.
#[derive(Clone)]
pub struct Manner {
    pub links: RangeInclusive<u32>,
    /// How many streams are reserved.
    pub streams: RangeInclusive<u32>,
    /// How many streams in a hundred offer no more than P between ticks, and how many of these in a hundred begin at each tick to offer more.
    pub conforming: usize,
    pub ceasing: usize,
    /// Whether every charge is the least, and every P a multiple of it.
    pub least: bool,
    /// Whether every reserved frame has the same tag.
    pub one_tag: bool,
    /// How many arrivals in a hundred leave nothing, or enough for a frame more, at their place.
    pub exact: usize,
    /// Whether all streams offer all that they can between any two ticks, or most of them and the others later.
    pub pressed: bool,
    /// How many calls of any sort stand between two ticks besides.
    pub turns: RangeInclusive<u32>,
    /// How often such a call is a best effort or a transmit, beside 10 for an arrival.
    pub best_effort: usize,
    pub transmit: usize,
    pub services: &'static [Service],
    pub ticks: RangeInclusive<u32>,
    /// How many reserved streams in a hundred are withdrawn in each stretch; what they leave free is most often granted again as soon as it can be.
    pub withdrawn: usize,
}

/// A list that is being written.
struct Writer<'a> {
    random: &'a mut Random,
    playing: Playing,
    share: u32,
    /// The reserved octets sent since the last tick, and whether a transmit sent no reserved frame.
    sent: u32,
    idle: bool,
    /// What each stream offered since the last tick, and whether it still offers no more than P.
    offered: [u32; STREAMS],
    conforming: [bool; STREAMS],
    /// Which streams were granted a reservation.
    was_granted: [bool; STREAMS],
    /// Reservations that are still to come.
    later: Vec<(u8, u32)>,
    /// How many streams in a hundred offer all that they can between two ticks; the others can still fill all their queues later.
    pressed: usize,
    /// How many ticks and transmits in a hundred are control writes.
    controlled: usize,
}

/// Writes a list in a manner; before the first tick, where the link condition asks nothing, the link most often does not serve.
pub fn write(random: &mut Random, play: Play, begin: &Octets, manner: &Manner) -> Vec<Event> {
    let link = random.between(manner.links.clone());
    let mut writer = Writer::open(random, play, begin, link);
    writer.plan(manner);
    for tick in 0..writer.random.between(manner.ticks.clone()) {
        let withheld = tick == 0 && writer.random.chance(75);
        let service = if withheld { Service::Withheld } else { writer.random.pick(manner.services) };
        writer.stretch(manner, service);
        writer.serve(service);
        writer.tick(Call::Tick);
        writer.cease(manner);
        writer.grant_again(manner);
    }
    writer.stretch(manner, Service::Any);
    writer.playing.ask_all();
    writer.playing.events
}

/// Writes a list of any calls; before a tick the link serves so many times in a hundred.
pub fn write_any(random: &mut Random, play: Play, begin: &Octets, profile: &Profile, calls: usize, served: usize) -> Vec<Event> {
    let link = random.between(LINKS);
    let mut writer = Writer::open(random, play, begin, link);
    for _ in 0..calls {
        match profile.step(writer.random, &writer.playing.octets().record) {
            Step::Call(call) => one_by_one(call).into_iter().for_each(|call| writer.any(call, served)),
            Step::HostWrites { .. } => unreachable!("nobody else writes the record of a list"),
        }
    }
    writer.playing.ask_all();
    writer.playing.events
}

impl<'a> Writer<'a> {
    /// Begins a list with an Open.
    fn open(random: &'a mut Random, play: Play, begin: &Octets, link: u32) -> Writer<'a> {
        let mut playing = Playing::new(play, begin);
        playing.call(Call::Open { link, delay: random.between(DELAYS) });
        let (offered, conforming, was_granted) = ([0; STREAMS], [false; STREAMS], [false; STREAMS]);
        let (pressed, controlled) = (random.pick(&[100, 100, 75]), random.pick(&[0, 0, 30, 100]));
        Writer {
            random,
            playing,
            share: link - LARGEST_CHARGE,
            sent: 0,
            idle: false,
            offered,
            conforming,
            was_granted,
            later: Vec::new(),
            pressed,
            controlled,
        }
    }

    /// Plays any call of a list; before a tick the link serves so many times in a hundred.
    fn any(&mut self, call: Call, served: usize) {
        if made(&call) != Call::Tick {
            let arrival = arrival_of(&self.playing.octets().record, &call);
            self.call(call);
            return arrival.into_iter().for_each(|(stream, _)| self.ask(stream as u8));
        }
        if self.random.chance(served) {
            let service = self.random.pick(&[Service::Share, Service::Idle]);
            self.serve(service);
        }
        self.tick(call);
    }

    /// Plays a call, a tick or a transmit now and then by a control write, and keeps what the link sent and what a stream offered.
    fn call(&mut self, call: Call) {
        let controlled = self.random.chance(self.controlled);
        let event = self.playing.call(if controlled { by_control(call, self.random.number()) } else { call });
        if let (Call::Reserve { stream, .. }, 0) = (&event.call, event.reply.refusal) {
            self.was_granted[usize::from(*stream)] = true;
        }
        if made(&event.call) == Call::Transmit {
            match self.charge_sent(&event) {
                Some(charge) => self.sent += charge,
                None => self.idle = true,
            }
        }
        if let Some((stream, charge)) = arrival_of(&self.playing.octets().record, &event.call) {
            if CHARGES.contains(&charge) && self.is_reserved(stream) {
                self.offered[stream] += charge;
            }
        }
    }

    /// Now and then asks for the counts of a stream, or chooses it and reads them.
    fn ask(&mut self, stream: u8) {
        if self.random.chance(ASKED) {
            self.playing.call(Call::StreamCounts { stream });
        }
        if self.random.chance(CHOSEN) {
            let choice = Call::WriteRegister { offset: CHOICE, value: stream.into() };
            let reads = [ACCEPTED, DISCARDED].map(|offset| Call::ReadRegister { offset });
            [choice].into_iter().chain(reads).for_each(|call| _ = self.playing.call(call));
        }
    }

    /// Whether there is such a stream and it is reserved.
    fn is_reserved(&self, stream: usize) -> bool {
        stream < STREAMS && layout::is_reserved(&self.playing.octets().record, stream)
    }

    /// The charge of the reserved frame that a Transmit sent, by its mark.
    fn charge_sent(&self, event: &Event) -> Option<u32> {
        let brought = self.playing.events.get(event.marked.second as usize)?;
        let (_, charge) = arrival_of(&self.playing.octets().record, &brought.call)?;
        (event.reply.first < STREAMS as u32).then_some(charge)
    }

    /// Plays a Tick, or the control write that makes it.
    fn tick(&mut self, tick: Call) {
        self.call(tick);
        (self.sent, self.idle, self.offered) = (0, false, [0; STREAMS]);
    }

    /// Some of the streams that offered no more than P offer more from now on.
    fn cease(&mut self, manner: &Manner) {
        for conforming in &mut self.conforming {
            *conforming = *conforming && !self.random.chance(manner.ceasing);
        }
    }

    /// Reserves streams whose P's fill the share, some of them later; then asks for a frame more than is free.
    fn plan(&mut self, manner: &Manner) {
        let most = (self.share / LEAST_PERMITTED).min(STREAMS as u32);
        let count = self.random.between(manner.streams.clone()).min(most);
        let streams = self.random.shuffled(STREAMS);
        let mut free = self.share;
        for (number, &stream) in streams.iter().take(count as usize).enumerate() {
            let others = count - 1 - number as u32;
            let permitted = self.part(manner, free - LEAST_PERMITTED * others, others);
            free -= permitted;
            self.conforming[stream] = self.random.chance(manner.conforming);
            self.later.push((stream as u8, permitted));
        }
        for _ in 0..count {
            if self.random.chance(90) {
                self.reserve_later();
            }
        }
        let other = streams[count as usize % STREAMS];
        self.call(Call::Reserve { stream: other as u8, permitted: free + LEAST_PERMITTED });
    }

    /// The P of a stream: all that it may take where no other follows, else about an even part of it.
    fn part(&mut self, manner: &Manner, most: u32, others: u32) -> u32 {
        let even = (2 * most / (others + 1)).clamp(LEAST_PERMITTED, most);
        let some = self.random.between(LEAST_PERMITTED..=even);
        match (others, manner.least) {
            (0, false) => most,
            (0, true) => most - most % LEAST_CHARGE,
            (_, false) => some,
            (_, true) => some - some % LEAST_CHARGE,
        }
    }

    /// Reserves the next stream that is to be reserved, and most often binds a stream.
    fn reserve_later(&mut self) {
        if let Some((stream, permitted)) = self.later.pop() {
            self.call(Call::Reserve { stream, permitted });
        }
        self.bind_most_often();
    }

    /// Most often binds a stream.
    fn bind_most_often(&mut self) {
        if self.random.chance(BOUND) {
            let bind = ORDINARY.bind(self.random, &self.playing.octets().record, false);
            self.call(bind);
        }
    }

    /// Withdraws some of the streams that are reserved, draining ones among them.
    fn withdraw(&mut self, manner: &Manner) {
        for stream in self.reserved() {
            if self.random.chance(manner.withdrawn) {
                self.call(Call::Withdraw { stream: stream as u8 });
            }
        }
    }

    /// Grants what withdrawn streams left free to one of the numbers that are not reserved, most often a freed one.
    fn grant_again(&mut self, manner: &Manner) {
        let record = &self.playing.octets().record;
        let free = self.share - layout::permitted_sum(record);
        let was_granted = |stream: &usize| !layout::is_reserved(record, *stream) && self.was_granted[*stream];
        let freed: Vec<usize> = (0..STREAMS).filter(was_granted).collect();
        if manner.withdrawn == 0 || freed.is_empty() || free < LEAST_PERMITTED || self.random.chance(15) {
            return;
        }
        let (any, freed, others) = (self.random.below(STREAMS), self.random.pick(&freed), self.random.pick(&[0, 0, 1]));
        self.ask_free(freed as u8);
        let stream = self.random.pick(&[freed, freed, freed, any]);
        let permitted = self.part(manner, free, others);
        self.conforming[stream] = self.random.chance(manner.conforming);
        self.call(Call::Reserve { stream: stream as u8, permitted });
        self.bind_most_often();
    }

    /// Now and then a call of a number that is free, which is refused.
    fn ask_free(&mut self, stream: u8) {
        let tag = self.random.number();
        match self.random.below(9) {
            0 => self.call(Call::Arrive { stream, charge: LEAST_CHARGE, tag }),
            1 => self.call(Call::Withdraw { stream }),
            2 => self.call(Call::Bind { stream, address: [0; ADDRESS_OCTETS], vid: 1 }),
            _ => (),
        }
    }

    /// The calls between two ticks, but for those by which the link serves at their end.
    fn stretch(&mut self, manner: &Manner, service: Service) {
        let withdrawn_first = self.random.chance(30);
        if withdrawn_first {
            self.withdraw(manner);
        }
        if manner.pressed {
            for stream in self.random.shuffled(STREAMS) {
                if self.random.chance(self.pressed) {
                    self.press(manner, stream);
                }
            }
        }
        for _ in 0..self.random.between(manner.turns.clone()) {
            match self.random.weighted(&[10, manner.best_effort, manner.transmit, 1, 1]) {
                0 => self.offer_any(manner),
                1 => self.best_effort(),
                2 if self.may_send(service) => self.call(Call::Transmit),
                3 => self.reserve_later(),
                4 => self.refused_call(),
                _ => (),
            }
        }
        if !withdrawn_first {
            self.withdraw(manner);
        }
    }

    /// The reserved streams.
    fn reserved(&self) -> Vec<usize> {
        (0..STREAMS).filter(|&stream| self.is_reserved(stream)).collect()
    }

    /// A number of two octets in a stream's entry.
    fn of_stream(&self, stream: usize, field: usize) -> u32 {
        two(&self.playing.octets().record, layout::entry(stream) + field)
    }

    /// A stream offers all that it can until the next tick.
    fn press(&mut self, manner: &Manner, stream: usize) {
        for _ in 0..RESERVED_QUEUES * QUEUE_PLACES {
            let record = &self.playing.octets().record;
            let spent = record[layout::entry(stream) + layout::PLACE] >= LAST && self.of_stream(stream, layout::LEFT) < LEAST_CHARGE;
            if !self.is_reserved(stream) || spent || !self.offer(manner, stream) {
                return;
            }
        }
    }

    /// An arrival on any reserved stream.
    fn offer_any(&mut self, manner: &Manner) {
        let reserved = self.reserved();
        if !reserved.is_empty() {
            let stream = self.random.pick(&reserved);
            self.offer(manner, stream);
        }
    }

    /// An arrival on a stream, unless the stream offers no more than P and has done so; whether the frame was accepted.
    fn offer(&mut self, manner: &Manner, stream: usize) -> bool {
        let (left, permitted) = (self.of_stream(stream, layout::LEFT), self.of_stream(stream, layout::PERMITTED));
        let room = match self.conforming[stream] {
            true => permitted.saturating_sub(self.offered[stream]),
            false if left < LEAST_CHARGE => permitted,
            false => left,
        };
        if room < LEAST_CHARGE {
            return false;
        }
        let charge = self.charge(manner, room);
        let tag = self.random.number();
        let tag = if manner.one_tag { 0 } else { self.random.pick(&[0, 1, u32::MAX, tag]) };
        let call = arrival(self.random, &self.playing.octets().record, FRAMES, stream as u8, charge, tag);
        self.call(call);
        let accepted = self.playing.events.last().is_some_and(|event| event.reply.refusal == 0);
        self.ask(stream as u8);
        accepted
    }

    /// A charge that has room; an exact one leaves nothing of it, or enough for a frame more.
    fn charge(&mut self, manner: &Manner, room: u32) -> u32 {
        let exact = self.random.chance(manner.exact);
        let most = room.min(LARGEST_CHARGE);
        if manner.least {
            return LEAST_CHARGE;
        }
        if room < 2 * LEAST_CHARGE || (room == most && self.random.chance(40)) {
            return most;
        }
        self.random.between(LEAST_CHARGE..=if exact { most.min(room - LEAST_CHARGE) } else { most })
    }

    /// A best-effort frame, by its charge or by its octets.
    fn best_effort(&mut self) {
        let (charge, tag) = (self.random.between(CHARGES), self.random.number());
        let framed = any_untagged(self.random).frame(self.random, charge, tag);
        let call = self.random.pick(&[Call::BestEffort { charge, tag }, framed]);
        self.call(call);
    }

    /// A call that is refused, or changes nothing that a stream can see.
    fn refused_call(&mut self) {
        let (stream, number) = (self.random.octet(), self.random.number());
        let reserved = self.is_reserved(usize::from(stream));
        let call = match self.random.below(8) {
            6 => any_read(self.random, false),
            7 => self.write_outside_control(),
            0 => Call::Open { link: self.random.between(LINKS), delay: 1 },
            4 => ORDINARY.bind(self.random, &self.playing.octets().record, true),
            5 => self.frame_outside(),
            1 => Call::BestEffort { charge: number % LEAST_CHARGE, tag: number },
            2 if !reserved => Call::Arrive { stream, charge: LEAST_CHARGE, tag: number },
            _ => Call::Arrive { stream, charge: LARGEST_CHARGE + 1 + number % 100, tag: number },
        };
        self.call(call);
    }

    /// A write of a register that is not control.
    fn write_outside_control(&mut self) -> Call {
        let value = self.random.number();
        Call::WriteRegister { offset: 4 * self.random.between(1..=15), value }
    }

    /// A Frame of a length outside its range.
    fn frame_outside(&mut self) -> Call {
        let header = any_header(self.random, &self.playing.octets().record);
        let length = self.random.pick(&[0, 59, 1_997]);
        Call::Frame { octets: header.octets(self.random, length), tag: self.random.number() }
    }

    /// The charge of the frame that the next Transmit sends, if one waits in prior or current.
    fn next_charge(&self) -> Option<u32> {
        let Octets { record, memory } = self.playing.octets();
        let role = |role: u8| (usize::from(record[layout::PRIOR]) + usize::from(role)) % RESERVED_QUEUES;
        let waits = |queue: &usize| two(record, layout::count(*queue)) > 0;
        let queue = [role(0), role(CURRENT)].into_iter().find(waits)?;
        let start = two(record, layout::start(queue)) as usize;
        Some(two(memory, layout::frame(queue, start, 0) + layout::FRAME_CHARGE))
    }

    /// Whether a Transmit now leaves it to the service how the stretch ends.
    fn may_send(&self, service: Service) -> bool {
        match service {
            Service::Share => self.next_charge().is_some() && self.sent < self.share,
            Service::OneFrameShort => self.next_charge().is_some_and(|charge| self.sent + charge < self.share),
            Service::Idle | Service::Any => true,
            Service::Withheld => false,
        }
    }

    /// The link serves at the end of a stretch.
    fn serve(&mut self, service: Service) {
        match service {
            Service::Share => {
                self.transmit_while(|writer| !writer.idle && writer.may_send(service));
                self.transmit_while(|writer| !writer.idle && writer.sent < writer.share);
            }
            Service::OneFrameShort => self.transmit_while(|writer| writer.may_send(service)),
            Service::Idle => self.transmit_while(|writer| !writer.idle),
            Service::Any => {
                for _ in 0..self.random.between(0..=40) {
                    self.call(Call::Transmit);
                }
            }
            Service::Withheld => (),
        }
    }

    /// Transmits as long as a test says so, but no more often than frames can wait, and once more.
    fn transmit_while(&mut self, test: impl Fn(&Writer) -> bool) {
        for _ in 0..=QUEUES * QUEUE_PLACES {
            if !test(self) {
                return;
            }
            self.call(Call::Transmit);
        }
    }
}
