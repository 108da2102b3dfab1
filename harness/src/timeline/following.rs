//! Follows each frame of a port's events from its arrival to the link, by the replies alone: in which queue it waits, from which event to which. A
//! frame stays in one role between two ticks; a tick ends the stay and begins another, one role nearer. So does the beginning of a band of the
//! picture, in the same role.

use std::{array, mem};

use crate::call::{Call, Reply};
use crate::model::port::{Frame, BEST_EFFORT, BEST_EFFORT_STREAM, CURRENT, LAST, NEXT, NOTHING, QUEUES, RESERVED_QUEUES};

/// The role prior, before current.
const PRIOR: usize = CURRENT as usize - 1;
/// The roles in the order in which a sent frame is looked for; by the rule none is sent from next or last.
const SENDING: [usize; QUEUES] = [PRIOR, CURRENT as usize, BEST_EFFORT, NEXT as usize, LAST as usize];

/// How a stay begins.
#[derive(Clone, Copy, Debug, PartialEq, Eq)]
pub enum Came {
    /// The frame joins the queue.
    Joined,
    /// A tick gives the queue its role.
    Moved,
    /// The frame waits as a band begins.
    Carried,
}

/// How a stay ends.
#[derive(Clone, Copy, Debug, PartialEq, Eq)]
pub enum Went {
    /// The link sends the frame.
    Sent,
    /// A tick gives the queue the next role.
    Moved,
    /// A tick throws the frame away.
    Purged,
    /// The frame still waits as the next band begins.
    Carried,
    /// The frame still waits after the last event.
    Not,
}

/// A frame in one role.
#[derive(Clone, Debug, PartialEq, Eq)]
pub struct Stay {
    pub frame: Frame,
    /// The role, by its place in `words::ROLES`.
    pub role: usize,
    /// The lane within the row of the role, from 0; no other frame has it at the same time.
    pub lane: usize,
    /// The number of the event by which the frame came into the role.
    pub since: usize,
    /// The number of the event at which the stay begins.
    pub from: usize,
    /// The number of the event at which it ends, or one more than the last event's.
    pub to: usize,
    pub came: Came,
    pub went: Went,
}

/// The stays so far, and those that no event has ended, by role, oldest first.
struct Following {
    stays: Vec<Stay>,
    waiting: [Vec<usize>; QUEUES],
}

/// The stays of all frames, in the order in which they begin, where bands begin at the events of some numbers.
pub fn stays(events: &[(Call, Reply)], begins: &[usize]) -> Vec<Stay> {
    let mut following = Following { stays: Vec::new(), waiting: array::from_fn(|_| Vec::new()) };
    for (before, (call, reply)) in events.iter().enumerate() {
        if begins.contains(&(before + 1)) {
            following.carry(before + 1);
        }
        if reply.refusal == 0 {
            following.follow(before + 1, call, reply);
        }
    }
    following.ended(events.len() + 1)
}

impl Following {
    /// Follows what a granted event does to the frames.
    fn follow(&mut self, event: usize, call: &Call, reply: &Reply) {
        match *call {
            Call::Arrive { stream, charge, tag } if reply.first < RESERVED_QUEUES as u32 => {
                self.join(event, reply.first as usize, Frame { stream: u32::from(stream), charge, tag });
            }
            Call::BestEffort { charge, tag } => self.join(event, BEST_EFFORT, Frame { stream: BEST_EFFORT_STREAM, charge, tag }),
            Call::Tick => self.tick(event),
            Call::Transmit if reply.first != NOTHING => self.send(event, reply.first, reply.second),
            _ => {}
        }
    }

    /// A frame joins the queue of a role, in the first lane that is free.
    fn join(&mut self, event: usize, role: usize, frame: Frame) {
        let taken: Vec<usize> = self.waiting[role].iter().map(|&stay| self.stays[stay].lane).collect();
        let lane = (0..).find(|lane| !taken.contains(lane)).expect("a lane above all that are taken is free");
        self.begin(Stay { frame, role, lane, since: event, from: event, to: event, came: Came::Joined, went: Went::Not });
    }

    /// The frames of prior are purged, and every other reserved queue comes one role nearer, each frame in its lane.
    fn tick(&mut self, event: usize) {
        self.end_all(event, PRIOR, Went::Purged);
        for role in PRIOR + 1..RESERVED_QUEUES {
            self.come_nearer(event, role);
        }
    }

    /// The frames of a role come one role nearer.
    fn come_nearer(&mut self, event: usize, role: usize) {
        for stay in self.end_all(event, role, Went::Moved) {
            let moved = Stay { role: role - 1, since: event, from: event, came: Came::Moved, went: Went::Not, ..self.stays[stay].clone() };
            self.begin(moved);
        }
    }

    /// A band begins at an event.
    fn carry(&mut self, event: usize) {
        for role in 0..QUEUES {
            self.carry_in(event, role);
        }
    }

    /// A band begins, and the frames of a role stand in its first lanes, oldest first.
    fn carry_in(&mut self, event: usize, role: usize) {
        for (lane, stay) in self.end_all(event, role, Went::Carried).into_iter().enumerate() {
            let carried = Stay { lane, from: event, came: Came::Carried, went: Went::Not, ..self.stays[stay].clone() };
            self.begin(carried);
        }
    }

    /// The link sends the oldest frame with the stream and tag of the reply.
    fn send(&mut self, event: usize, stream: u32, tag: u32) {
        let is_sent = |stay: &usize| self.stays[*stay].frame.stream == stream && self.stays[*stay].frame.tag == tag;
        let found = SENDING.iter().find_map(|&role| Some((role, self.waiting[role].iter().position(is_sent)?)));
        if let Some((role, place)) = found {
            let stay = self.waiting[role].remove(place);
            self.end(event, stay, Went::Sent);
        }
    }

    /// Begins a stay.
    fn begin(&mut self, stay: Stay) {
        self.waiting[stay.role].push(self.stays.len());
        self.stays.push(stay);
    }

    /// Ends a stay.
    fn end(&mut self, event: usize, stay: usize, went: Went) {
        self.stays[stay].to = event;
        self.stays[stay].went = went;
    }

    /// Ends all stays in a role.
    fn end_all(&mut self, event: usize, role: usize, went: Went) -> Vec<usize> {
        let stays = mem::take(&mut self.waiting[role]);
        stays.iter().for_each(|&stay| self.end(event, stay, went));
        stays
    }

    /// All stays, where those that no event has ended last to an event.
    fn ended(mut self, event: usize) -> Vec<Stay> {
        (0..QUEUES).for_each(|role| _ = self.end_all(event, role, Went::Not));
        self.stays
    }
}
