//! Random recordings under random plans: what holds of every capture that the tool makes.

use super::made::{events_of, tagged, typed, untagged};
use crate::call::{Call, Reply};
use crate::comparing::fit::Octets;
use crate::comparing::random::Random;
use crate::exports;
use crate::guarantee::claims;
use crate::guarantee::found::Link;
use crate::guarantee::list::{Event, Playing};
use crate::model;
use crate::model::frame::{charge, pair, Pair, FRAME_LENGTHS};
use crate::model::port::{Port, DELAYS, LARGEST_CHARGE, LEAST_PERMITTED, LINKS, NOTHING, STREAMS};
use crate::model::rule;
use crate::recording::plan::Withdrawal;
use crate::recording::report::Report;

/// A random recording under a random plan, and what became of it.
struct Made {
    epoch: u32,
    link: u32,
    pairs: Vec<(u8, Pair)>,
    withdrawals: Vec<Withdrawal>,
    packets: Vec<(u64, Vec<u8>)>,
    events: Vec<Call>,
    report: Report,
}

/// An address of few, so that pairs often share it.
fn any_address(random: &mut Random) -> [u8; 6] {
    [1, 0, 0x5e, 0, 0, random.below(3) as u8]
}

/// A frame of any of the sorts, most often one of a bound pair.
fn any_frame(random: &mut Random, pairs: &[(u8, Pair)], most: u32) -> Vec<u8> {
    let (shortest, longest) = (*FRAME_LENGTHS.start(), *FRAME_LENGTHS.end());
    let any = random.between(shortest as u32..=most) as usize;
    let length = random.pick(&[shortest, shortest, 14, shortest - 1, longest, longest + 1, any, any, any, any, any]);
    match random.weighted(&[70, 10, 15, 5]) {
        0 if !pairs.is_empty() && length >= 16 => {
            let pair = random.pick(pairs).1;
            tagged(pair.address, pair.vid as u16 | (random.number() as u16) << 12, length)
        }
        1 if length >= 16 => tagged(any_address(random), random.number() as u16, length),
        2 => typed(any_address(random), vec![0x88, 0xa8, 0, 1], length),
        _ => untagged(length),
    }
}

/// A time between two packets: most often none or little, now and then some epochs or back.
fn any_step(random: &mut Random, epoch: u32) -> i64 {
    let epoch = i64::from(epoch);
    let part = epoch * random.below(1_000) as i64 / 1_000;
    match random.weighted(&[40, 40, 10, 3, 3]) {
        0 => 0,
        1 => part / 20,
        2 => part,
        3 => part * 6,
        _ => -part,
    }
}

/// Lines of a plan that withdraw some of the streams of its text, each at a time within the first epochs or at an epoch's end, and the withdrawals.
fn any_withdrawals(random: &mut Random, epoch: u32, plan: &str) -> (String, Vec<Withdrawal>) {
    let reserved = plan.lines().filter_map(|line| line.strip_prefix("reserve ")?.split(' ').next()?.parse().ok());
    let some: Vec<u8> = reserved.filter(|_| random.chance(30)).collect();
    let withdrawals: Vec<Withdrawal> = some.into_iter().map(|stream| Withdrawal { time: any_time(random, epoch), stream }).collect();
    (withdrawals.iter().map(|Withdrawal { time, stream }| format!("withdraw {stream} {time}\n")).collect(), withdrawals)
}

/// A time of a withdrawal, most often early, and as often at an epoch's end as not.
fn any_time(random: &mut Random, epoch: u32) -> u64 {
    let (epochs, part) = (random.pick(&[0, 0, 1, 2, 5, 20]), random.pick(&[0, 1]) * random.below(1_000) as u64);
    epochs * u64::from(epoch) + u64::from(epoch) * part / 1_000
}

/// A plan's text with the pairs that it binds.
fn any_plan(random: &mut Random, epoch: u32, link: u32) -> (String, Vec<(u8, Pair)>) {
    let mut text = format!("epoch {epoch}\nopen {link} {}\n", random.between(DELAYS));
    let (mut pairs, mut free): (Vec<(u8, Pair)>, u32) = (Vec::new(), link - LARGEST_CHARGE);
    let streams = random.shuffled(STREAMS);
    for stream in &streams[..random.below(8)] {
        if free < LEAST_PERMITTED {
            break;
        }
        let permitted = random.between(LEAST_PERMITTED..=free);
        free -= permitted;
        text.push_str(&format!("reserve {stream} {permitted}\n"));
        let pair = Pair { address: any_address(random), vid: random.between(1..=4) };
        if random.chance(90) && pairs.iter().all(|(_, other)| *other != pair) {
            let [a, b, c, d, e, f] = pair.address;
            text.push_str(&format!("bind {stream} {a:02x}:{b:02x}:{c:02x}:{d:02x}:{e:02x}:{f:02x} {}\n", pair.vid));
            pairs.push((*stream as u8, pair));
        }
    }
    (text, pairs)
}

/// Any recording under any plan.
fn any_made(number: u64) -> Made {
    let mut random = Random::of(1, "recordings", number);
    let any = random.between(1..=5_000_000);
    let epoch = random.pick(&[1, 3, 1_000, 160_000, any, any, any]);
    let any = random.between(LINKS);
    let link = random.pick(&[*LINKS.start(), *LINKS.end(), 2_500, 4_000, any]);
    let (plan, pairs) = any_plan(&mut random, epoch, link);
    let (lines, withdrawals) = any_withdrawals(&mut random, epoch, &plan);
    let (count, most) = (random.pick(&[1, 10, 100, 400, 2_500]), random.pick(&[60, 150, *FRAME_LENGTHS.end() as u32]));
    let mut time = 1_700_000_000_000_000_000_i64;
    let mut packets = Vec::new();
    for _ in 0..count {
        packets.push((time as u64, any_frame(&mut random, &pairs, most)));
        time += any_step(&mut random, epoch);
    }
    let (events, report) = events_of(&(plan + &lines), &packets);
    Made { epoch, link, pairs, withdrawals, packets, events, report }
}

/// Holds random recordings against a claim; how often it said that it saw what the test is for.
fn hold(claim: impl Fn(&Made) -> bool) -> usize {
    (0..400).filter(|&number| claim(&any_made(number))).count()
}

/// The octets of a packet, with zeros up to the shortest frame's length.
fn padded(octets: &[u8]) -> Vec<u8> {
    let mut octets = octets.to_vec();
    octets.resize(octets.len().max(*FRAME_LENGTHS.start()), 0);
    octets
}

/// The call that a frame becomes as the model reads its octets, padded; none where its length is outside.
fn decided(pairs: &[(u8, Pair)], number: usize, octets: &[u8]) -> Option<Call> {
    let octets = padded(octets);
    if !FRAME_LENGTHS.contains(&octets.len()) {
        return None;
    }
    let (charge, tag, found) = (charge(&octets), number as u32 + 1, pair(&octets));
    Some(match pairs.iter().find(|(_, pair)| Some(*pair) == found) {
        Some((stream, _)) => Call::Arrive { stream: *stream, charge, tag },
        None => Call::BestEffort { charge, tag },
    })
}

/// The events that packets bring, in order, are those that the model's reading of a frame decides, up to the first that has no room.
#[test]
fn packets_become_what_frame_decides() {
    let full = hold(|made| {
        let in_capture = made.packets.len() - made.report.left_out.count as usize;
        let mut packets = made.packets[..in_capture].iter().enumerate();
        let mut bindings = Bindings { pairs: made.pairs.clone(), draining: Vec::new() };
        for call in &made.events {
            bindings.follow(call);
            if matches!(call, Call::Arrive { .. } | Call::BestEffort { .. }) {
                let expected = packets.find_map(|(number, (_, octets))| decided(&bindings.pairs, number, octets));
                assert_eq!(Some(call), expected.as_ref());
            }
        }
        assert_eq!(packets.find_map(|(number, (_, octets))| decided(&bindings.pairs, number, octets)), None);
        made.report.left_out.count > 0
    });
    assert!(full >= 20, "{full} captures are full");
}

/// The pairs that are bound, and the withdrawn streams with the ticks until they are free.
struct Bindings {
    pairs: Vec<(u8, Pair)>,
    draining: Vec<(u8, u32)>,
}

impl Bindings {
    /// Follows an event: the fourth tick after a withdrawal ends the stream's binding.
    fn follow(&mut self, call: &Call) {
        match *call {
            Call::Withdraw { stream } => self.draining.push((stream, 4)),
            Call::Tick => {
                self.draining.iter_mut().for_each(|(_, ticks)| *ticks -= 1);
                let free: Vec<u8> = self.draining.iter().filter(|(_, ticks)| *ticks == 0).map(|(stream, _)| *stream).collect();
                self.draining.retain(|(_, ticks)| *ticks > 0);
                self.pairs.retain(|(stream, _)| !free.contains(stream));
            }
            _ => {}
        }
    }
}

/// Before each withdrawal there are as many ticks as epochs have ended by its time, and of the packets those that are earlier; one that is not in the
/// capture is told.
#[test]
fn withdrawals_stand_at_their_times() {
    let seen = hold(|made| {
        for withdrawal in &made.withdrawals {
            let Withdrawal { time, stream } = *withdrawal;
            let at = made.events.iter().position(|call| *call == Call::Withdraw { stream });
            assert_eq!(at.is_none(), made.report.not_withdrawn.contains(&stream), "stream {stream}");
            let Some(at) = at else { continue };
            let ticks = made.events[..at].iter().filter(|call| **call == Call::Tick).count() as u64;
            assert_eq!(ticks, time / u64::from(made.epoch), "stream {stream}");
            assert!(made.events[..at].iter().filter_map(|call| arrival_time(made, call)).all(|arrival| arrival < time));
            assert!(made.events[at..].iter().filter_map(|call| arrival_time(made, call)).all(|arrival| arrival >= time));
        }
        made.withdrawals.len() > made.report.not_withdrawn.len()
    });
    assert!(seen >= 100, "{seen} captures have withdrawals");
}

/// When the packet of an event arrives, from the first packet on: at the latest time up to it.
fn arrival_time(made: &Made, call: &Call) -> Option<u64> {
    let (Call::Arrive { tag, .. } | Call::BestEffort { tag, .. }) = *call else { return None };
    made.packets[..tag as usize].iter().map(|(time, _)| time - made.packets[0].0.min(*time)).max()
}

/// Before each packet there are as many ticks as epochs have ended by its time, or by the latest before it.
#[test]
fn ticks_stand_where_epochs_end() {
    let seen = hold(|made| {
        let (mut ticks, mut latest, mut packet) = (0, 0, 0);
        for call in &made.events {
            match *call {
                Call::Tick => ticks += 1,
                Call::Arrive { tag, .. } | Call::BestEffort { tag, .. } => {
                    let times = made.packets[packet..tag as usize].iter().map(|(time, _)| *time);
                    latest = times.fold(latest, u64::max);
                    packet = tag as usize;
                    assert_eq!(ticks, (latest - made.packets[0].0) / u64::from(made.epoch), "before packet {tag}");
                }
                _ => {}
            }
        }
        ticks > 2
    });
    assert!(seen >= 200, "{seen} captures have ticks");
}

/// A capture replays without a refusal but those that a sender meets on a good port, 14 to 16 and 25, and ends when all that was accepted is sent.
#[test]
fn captures_replay_without_other_refusals() {
    let discarding = hold(|made| {
        let mut port = Port::closed();
        let refusals: Vec<u8> = made.events.iter().map(|call| rule::step(&call.given(), &mut port).refusal).collect();
        assert!(refusals.iter().all(|refusal| [0, 14, 15, 16, 25].contains(refusal)), "{refusals:?}");
        let drains = made.events.iter().any(|call| matches!(call, Call::Withdraw { .. }));
        assert!(drains || !refusals.contains(&25));
        let waiting: usize = port.queues.iter().map(|queue| queue.frames.len()).sum();
        assert!(made.report.left_out.count > 0 || waiting == made.report.waiting);
        assert!(waiting == 0 || made.events.len() == 4_095);
        refusals.contains(&14)
    });
    assert!(discarding >= 100, "{discarding} captures discard");
}

/// The call of an event as a driver makes it: a packet is given to Frame with its octets.
fn driven(made: &Made, event: &Call) -> Call {
    match *event {
        Call::Arrive { tag, .. } | Call::BestEffort { tag, .. } => {
            Call::Frame { octets: padded(&made.packets[tag as usize - 1].1).into(), tag }
        }
        ref other => other.clone(),
    }
}

/// The proved port, with the bindings of the plan, replies to the packets given to Frame what it replies to the events of the capture.
#[test]
fn the_proved_frame_replies_as_the_capture_does() {
    let bound = hold(|made| {
        let (mut plain, mut driver) = (Octets::zero(), Octets::zero());
        for event in &made.events {
            let reply = exports::unscanned(&event.given(), &mut plain.record, &mut plain.memory);
            assert_eq!(exports::unscanned(&driven(made, event).given(), &mut driver.record, &mut driver.memory), reply, "{event}");
            let Call::Reserve { stream, .. } = *event else { continue };
            let Some((_, Pair { address, vid })) = made.pairs.iter().find(|(bound, _)| *bound == stream) else { continue };
            let bind = Call::Bind { stream, address, vid: *vid };
            assert_eq!(exports::unscanned(&bind, &mut driver.record, &mut driver.memory), Reply::granted(0, 0));
        }
        assert!(plain.memory == driver.memory);
        !made.pairs.is_empty()
    });
    assert!(bound >= 200, "{bound} captures have bindings");
}

/// The events as the model plays them on record and memory.
fn played(events: &[Call]) -> Vec<Event> {
    let mut playing = Playing::new(model::call, &Octets::zero());
    for call in events {
        playing.call(call.clone());
    }
    playing.events
}

/// The link condition of demand 3 holds, and with it what the demand promises; no tick purges.
#[test]
fn the_link_condition_holds() {
    let mut ways = [0; 4];
    for number in 0..150 {
        let made = any_made(number);
        let found = claims::check(&played(&made.events)).unwrap_or_else(|broken| panic!("recording {number}: {broken:?}"));
        assert_eq!(found.purging, 0, "recording {number}");
        let way = [Link::NothingToMeet, Link::ByOctets, Link::ByIdle, Link::ByBoth].iter().position(|link| *link == found.link);
        ways[way.unwrap_or_else(|| panic!("recording {number}: the link condition fails"))] += 1;
    }
    assert!(ways[2] >= 20 && ways[3] >= 5, "{ways:?}");
}

/// The octets that each transmit sends, or none for a tick.
fn sent(events: &[Call]) -> Vec<Option<u32>> {
    let mut port = Port::closed();
    let mut sent = Vec::new();
    for call in events {
        let waited: u32 = port.queues.iter().map(|queue| queue.octets()).sum();
        let reply = rule::step(&call.given(), &mut port);
        match call {
            Call::Tick => sent.push(None),
            Call::Transmit if reply.first == NOTHING => sent.push(Some(0)),
            Call::Transmit => sent.push(Some(waited - port.queues.iter().map(|queue| queue.octets()).sum::<u32>())),
            _ => {}
        }
    }
    sent
}

/// From every tick on, while the link is not idle: when a frame begins, those before it took less than the time that has passed at the end of the
/// epoch; and when an epoch ends, those that have begun took more than its time, but for one frame that was begun before the tick.
#[test]
fn never_more_than_the_link_carries_and_never_less() {
    let busy = hold(|made| {
        let sent = sent(&made.events);
        let ticks = (0..sent.len()).filter(|&at| sent[at].is_none());
        ticks.map(|tick| busy_epochs(&sent[tick + 1..], u64::from(made.link))).max().unwrap_or(0) >= 3
    });
    assert!(busy >= 20, "{busy} captures keep the link busy");
}

/// Holds the transmits after a tick against that; how many epochs the link is busy without a break.
fn busy_epochs(sent: &[Option<u32>], link: u64) -> u64 {
    let (mut epochs, mut octets) = (0, 0);
    for sent in sent {
        match sent {
            Some(0) => break,
            Some(charge) => {
                assert!(octets < (epochs + 1) * link, "{octets} octets were sent before a frame of epoch {epochs}");
                octets += u64::from(*charge);
            }
            None => {
                epochs += 1;
                assert!(octets + u64::from(LARGEST_CHARGE) > epochs * link, "{octets} octets were sent in {epochs} epochs");
            }
        }
    }
    epochs
}
