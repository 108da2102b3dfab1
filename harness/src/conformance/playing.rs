//! A capture as the rule plays it: the events of each port with their replies, and what each line of the output is of.

use crate::call::{Call, Reply};
use crate::model::capture::{self, Refused};
use crate::model::port::Port;
use crate::model::rule;
use crate::timeline::replied;

/// An event of a port, by its number from 1, and the rule's reply.
#[derive(Clone, Copy, Debug, PartialEq, Eq)]
pub struct Event<'a> {
    pub port: usize,
    pub number: usize,
    pub call: &'a Call,
    pub reply: Reply,
}

/// What a line of the output is of.
#[derive(Debug, PartialEq, Eq)]
pub enum Due<'a> {
    Event(Event<'a>),
    /// The file, which is refused.
    Refused(Refused),
    /// Nothing: all lines stand before it.
    Nothing,
}

/// The events of ports 0 to 3 with the rule's replies, or how the file is refused.
pub struct Playing {
    ports: Result<Vec<Vec<(Call, Reply)>>, Refused>,
}

impl Playing {
    /// The play of a capture.
    pub fn of(octets: &[u8]) -> Playing {
        Playing { ports: capture::events(octets).map(|ports| ports.iter().map(|events| replied(events)).collect()) }
    }

    /// What the line of a number, from 0, is of.
    pub fn due(&self, line: usize) -> Due<'_> {
        match &self.ports {
            Err(refused) if line == 0 => Due::Refused(*refused),
            Err(_) => Due::Nothing,
            Ok(ports) => self.event(ports, line).map_or(Due::Nothing, Due::Event),
        }
    }

    /// The event of a line, if the output has that line.
    fn event<'a>(&self, ports: &'a [Vec<(Call, Reply)>], line: usize) -> Option<Event<'a>> {
        let numbered = |(port, events): (usize, &'a Vec<(Call, Reply)>)| {
            let event = move |(before, (call, reply)): (usize, &'a (Call, Reply))| Event { port, number: before + 1, call, reply: *reply };
            events.iter().enumerate().map(event)
        };
        ports.iter().enumerate().flat_map(numbered).nth(line)
    }

    /// The events of a port with the rule's replies, up to and with that of a number.
    pub fn up_to(&self, port: usize, number: usize) -> &[(Call, Reply)] {
        self.ports.as_ref().map_or(&[], |ports| &ports[port][..number])
    }

    /// The port as it is before its event of a number.
    pub fn port_before(&self, port: usize, number: usize) -> Port {
        let mut played = Port::closed();
        for (call, _) in self.up_to(port, number - 1) {
            rule::step(&call.given(), &mut played);
        }
        played
    }

    /// The number of the last event before that of a number that changed the place or left of a stream, if one did.
    pub fn last_change(&self, port: usize, number: usize, stream: usize) -> Option<usize> {
        let mut played = Port::closed();
        let mut last = None;
        for (before, (call, _)) in self.up_to(port, number - 1).iter().enumerate() {
            let (place, left) = (played.streams[stream].place, played.streams[stream].left);
            rule::step(&call.given(), &mut played);
            if (place, left) != (played.streams[stream].place, played.streams[stream].left) {
                last = Some(before + 1);
            }
        }
        last
    }
}
