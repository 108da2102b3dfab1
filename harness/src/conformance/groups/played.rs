//! A port on which each event of a capture is played as it is chosen, so that a generator can go by what the port holds.

use crate::call::{Call, Reply};
use crate::model::port::{permitted_sum, share, Port, BEST_EFFORT};
use crate::model::rule;

/// The events that were chosen so far, and the port after them.
pub struct Played {
    port: Port,
    events: Vec<Call>,
}

impl Played {
    /// A port that was never opened, without events.
    pub fn closed() -> Played {
        Played { port: Port::closed(), events: Vec::new() }
    }

    /// A port that was opened.
    pub fn opened(link: u32, delay: u32) -> Played {
        let mut played = Played::closed();
        played.play(Call::Open { link, delay });
        played
    }

    /// Adds an event.
    pub fn play(&mut self, event: Call) -> Reply {
        let reply = rule::step(&event.given(), &mut self.port);
        self.events.push(event);
        reply
    }

    /// Adds a reservation.
    pub fn reserve(&mut self, stream: u8, permitted: u32) {
        self.play(Call::Reserve { stream, permitted });
    }

    /// Adds an arrival, whose tag is the event's number.
    pub fn arrive(&mut self, stream: u8, charge: u32) {
        self.play(Call::Arrive { stream, charge, tag: self.next_number() });
    }

    /// Adds a best-effort frame, whose tag is the event's number.
    pub fn best_effort(&mut self, charge: u32) {
        self.play(Call::BestEffort { charge, tag: self.next_number() });
    }

    /// Adds a withdrawal.
    pub fn withdraw(&mut self, stream: u8) {
        self.play(Call::Withdraw { stream });
    }

    /// Adds so many ticks.
    pub fn tick(&mut self, times: usize) {
        (0..times).for_each(|_| {
            self.play(Call::Tick);
        });
    }

    /// Adds so many transmits.
    pub fn transmit(&mut self, times: usize) {
        (0..times).for_each(|_| {
            self.play(Call::Transmit);
        });
    }

    /// The number that the next event will have, from 1.
    pub fn next_number(&self) -> u32 {
        self.events.len() as u32 + 1
    }

    /// P of a stream.
    pub fn permitted(&self, stream: u8) -> u32 {
        self.port.streams[usize::from(stream)].permitted
    }

    /// What is left at the place of a stream.
    pub fn left(&self, stream: u8) -> u32 {
        self.port.streams[usize::from(stream)].left
    }

    /// Whether a stream drains.
    pub fn is_draining(&self, stream: u8) -> bool {
        self.port.streams[usize::from(stream)].is_draining()
    }

    /// Whether a number is that of a stream of an open port, and not reserved.
    pub fn is_free(&self, stream: u8) -> bool {
        self.port.is_open() && self.port.streams.get(usize::from(stream)).is_some_and(|stream| !stream.is_reserved())
    }

    /// The streams that are reserved.
    pub fn reserved_streams(&self) -> Vec<u8> {
        let reserved = self.port.streams.iter().enumerate().filter(|(_, stream)| stream.is_reserved());
        reserved.map(|(number, _)| number as u8).collect()
    }

    /// R.
    pub fn reserved(&self) -> u32 {
        permitted_sum(&self.port.streams) as u32
    }

    /// The share still free of an open port.
    pub fn free(&self) -> u32 {
        share(self.port.link) - self.reserved()
    }

    /// What best effort of an open port still takes: K × (L − R) less W, or 0 where W is above it.
    pub fn room(&self) -> u32 {
        (self.port.delay * (self.port.link - self.reserved())).saturating_sub(self.port.waits)
    }

    /// How many best-effort frames wait.
    pub fn best_effort_waiting(&self) -> usize {
        self.port.queues[BEST_EFFORT].frames.len()
    }

    /// All events.
    pub fn events(self) -> Vec<Call> {
        self.events
    }
}
