//! A list of calls as it is played: twice at a time, as it is and with every frame marked by its call's number, which tells frames apart whose
//! stream, charge and tag are the same.

use crate::call::{Call, Given, Reply};
use crate::comparing::fit::Octets;
use crate::comparing::sides::Play;
use crate::model::port::STREAMS;

/// A call of a list, its reply, its reply in the marked play, and the first octet, if any, in which the plays' records differ after it.
#[derive(Clone, Debug, PartialEq, Eq)]
pub struct Event {
    pub call: Call,
    pub reply: Reply,
    pub marked: Reply,
    pub apart: Option<usize>,
}

/// A list that is being played, each play on a record and memory of its own.
pub struct Playing {
    play: Play,
    plain: Octets,
    marked: Octets,
    pub events: Vec<Event>,
}

impl Playing {
    /// A list that begins on copies of a record and memory.
    pub fn new(play: Play, begin: &Octets) -> Playing {
        Playing { play, plain: begin.clone(), marked: begin.clone(), events: Vec::new() }
    }

    /// Plays the next call of the list in both plays.
    pub fn call(&mut self, call: Call) -> Event {
        let number = self.events.len() as u32;
        let reply = (self.play)(&call.given(), &mut self.plain.record, &mut self.plain.memory);
        let marked = (self.play)(&with_tag(call.given(), number), &mut self.marked.record, &mut self.marked.memory);
        let event = Event { call, reply, marked, apart: first_apart(&self.plain.record, &self.marked.record) };
        self.events.push(event.clone());
        event
    }

    /// Asks for the counts of every stream.
    pub fn ask_all(&mut self) {
        (0..STREAMS as u8).for_each(|stream| _ = self.call(Call::StreamCounts { stream }));
    }

    /// Record and memory as the calls so far left them.
    pub fn octets(&self) -> &Octets {
        &self.plain
    }
}

/// The first octet in which two records differ.
fn first_apart(one: &[u8], other: &[u8]) -> Option<usize> {
    if one == other {
        return None;
    }
    one.iter().zip(other).position(|(one, other)| one != other)
}

/// The call with another tag, where it has one.
fn with_tag(call: Given, tag: u32) -> Given {
    match call {
        Call::Arrive { stream, charge, .. } => Call::Arrive { stream, charge, tag },
        Call::BestEffort { charge, .. } => Call::BestEffort { charge, tag },
        Call::Frame { octets, .. } => Call::Frame { octets, tag },
        other => other,
    }
}
