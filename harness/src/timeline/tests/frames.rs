//! On any list of events the frames stand in the picture where the outside program's port has them, and streams drain as they do there.

use super::any_events;
use super::seen::Seen;
use crate::call::{Call, Reply};
use crate::comparing::random::Random;
use crate::model::port::{Port, BEST_EFFORT, BEST_EFFORT_STREAM, CURRENT, NOTHING, QUEUES, RESERVED_QUEUES};
use crate::model::rule;
use crate::timeline::words::ROLES;
use crate::timeline::{drawn, frames, MOST};

/// How many lists are tried.
const LISTS: u64 = 60;
/// The seed of the lists.
const SEED: u64 = 1;
/// How often a withdrawn stream must become free in them.
const LEAST_FREED: usize = 50;

/// The labels of the frames that wait in a role.
fn waiting(port: &Port, role: usize) -> impl Iterator<Item = String> + '_ {
    let queue = if role < RESERVED_QUEUES { port.queue_at(role as u8) } else { BEST_EFFORT };
    port.queues[queue].frames.iter().map(frames::label)
}

/// The streams that drain, each with the ticks until it is free.
fn draining(port: &Port) -> impl Iterator<Item = (usize, u8)> + '_ {
    port.streams.iter().enumerate().filter(|(_, stream)| stream.is_draining()).map(|(number, stream)| (number, stream.draining))
}

/// What the box of a withdrawn stream says.
fn drain_label(stream: usize, ticks: u8) -> String {
    let more = if ticks == 1 { "" } else { "s" };
    format!("draining {stream}: {ticks} tick{more}")
}

/// What must be seen: boxes, ways and purges, in no order.
#[derive(Debug, Default, PartialEq, Eq)]
struct Due {
    boxes: Vec<String>,
    ways: Vec<String>,
    purges: Vec<String>,
}

impl Due {
    /// Adds the frames that wait as a band begins.
    fn add_band(&mut self, event: usize, port: &Port) {
        let roles = (0..QUEUES).flat_map(|role| waiting(port, role).map(move |label| format!("before {event} {} {label}", ROLES[role])));
        self.boxes.extend(roles);
        self.boxes.extend(draining(port).map(|(stream, ticks)| format!("before {event} {}", drain_label(stream, ticks))));
    }

    /// Adds what an event does, by the port as it was before and is after it.
    fn add_event(&mut self, event: usize, (call, reply): &(Call, Reply), before: &Port, after: &Port) {
        match call {
            Call::Tick => self.add_tick(event, before, after),
            Call::Transmit if reply.first != NOTHING => self.add_sent(event, reply, before),
            Call::Arrive { stream, tag, .. } if reply.refusal == 0 => {
                self.boxes.push(format!("{event} {} {stream}: {tag}", ROLES[reply.first as usize]));
            }
            Call::BestEffort { tag, .. } if reply.refusal == 0 => self.boxes.push(format!("{event} best effort {tag}")),
            Call::Withdraw { stream } if reply.refusal == 0 => {
                self.boxes.push(format!("{event} {}", drain_label(usize::from(*stream), after.streams[usize::from(*stream)].draining)));
            }
            _ => {}
        }
    }

    /// Adds what a tick purges and moves.
    fn add_tick(&mut self, event: usize, before: &Port, after: &Port) {
        self.purges.extend(waiting(before, 0).map(|label| format!("{label} in prior at {event}")));
        for role in 1..RESERVED_QUEUES {
            let (nearer, role_name) = (ROLES[role - 1], ROLES[role]);
            self.ways.extend(waiting(before, role).map(|label| format!("{label} from {role_name} to {nearer} at {event}")));
            self.boxes.extend(waiting(after, role - 1).map(|label| format!("{event} {nearer} {label}")));
        }
        self.boxes.extend(draining(after).map(|(stream, ticks)| format!("{event} {}", drain_label(stream, ticks))));
        let freed = draining(before).filter(|(stream, _)| !after.streams[*stream].is_reserved());
        self.boxes.extend(freed.map(|(stream, _)| format!("{event} draining {stream}: free")));
    }

    /// Adds the frame that a transmit sends.
    fn add_sent(&mut self, event: usize, reply: &Reply, before: &Port) {
        let role = [0, usize::from(CURRENT), BEST_EFFORT].into_iter().find(|&role| waiting(before, role).next().is_some());
        let role = role.expect("a frame waits that is sent");
        let oldest = waiting(before, role).next().expect("a frame waits that is sent");
        self.ways.push(format!("{oldest} from {} to link at {event}", ROLES[role]));
        let sort = if reply.first == BEST_EFFORT_STREAM { String::from("best effort") } else { format!("stream {}", reply.first) };
        self.boxes.push(format!("{event} link {sort} tag {}", reply.second));
    }

    /// The same in order.
    fn sorted(mut self) -> Due {
        [&mut self.boxes, &mut self.ways, &mut self.purges].into_iter().for_each(|list| list.sort());
        self
    }
}

/// What must be seen of the events from a number on, where bands begin at some.
fn due(events: &[(Call, Reply)], from: usize, begins: &[usize]) -> Due {
    let (mut due, mut port) = (Due::default(), Port::closed());
    for (event, (call, reply)) in (1..).zip(events) {
        let before = port.clone();
        assert_eq!(rule::step(&call.given(), &mut port), *reply);
        if begins.contains(&event) {
            due.add_band(event, &before);
        }
        if event >= from {
            due.add_event(event, &(call.clone(), *reply), &before, &port);
        }
    }
    due.sorted()
}

#[test]
fn frames_stand_where_the_port_has_them() {
    let mut freed = 0;
    for number in 0..LISTS {
        let random = &mut Random::of(SEED, "timeline", number);
        let events = any_events(random);
        let from = if random.chance(50) { 1 } else { random.between(2..=MOST as u32) as usize };
        let seen = Seen::of(&drawn(0, &events, from..=MOST, "").expect("the events fit"));
        let begins: Vec<usize> = seen.bands().iter().map(|band| first_event(band)).collect();
        let found = Due { boxes: seen.boxes(), ways: seen.ways(), purges: seen.purges() }.sorted();
        freed += found.boxes.iter().filter(|seen| seen.ends_with(": free")).count();
        assert_eq!(found, due(&events, from, &begins), "list {number} from event {from}");
    }
    assert!(freed >= LEAST_FREED, "{freed} streams are free after they were withdrawn");
}

/// The number of a band's first event.
fn first_event(band: &[&str]) -> usize {
    band.iter().find_map(|heading| heading.parse().ok()).expect("a band has an event")
}
