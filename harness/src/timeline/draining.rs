//! Follows each withdrawn stream by the replies alone, from its withdrawal to the tick that frees it, and draws it in a row of its own: a box with
//! the ticks until it is free where it is withdrawn and after each tick, a bar while it drains, and a box where it is free.

use std::mem;

use crate::call::{Call, Reply};
use crate::model::port::DRAINING_TICKS;
use crate::timeline::bands::{Band, Scene};
use crate::timeline::frames::{look, put_bar};
use crate::timeline::look::{Palette, BESIDE_BOX, LABEL};
use crate::timeline::svg::{Area, Svg};

/// The name of the row.
pub const DRAINING: &str = "draining";

/// A withdrawn stream between two ticks, or at the tick that frees it.
#[derive(Clone, Debug, PartialEq, Eq)]
pub struct Drain {
    pub stream: u8,
    /// The ticks until the stream is free; 0 where it is.
    pub ticks: u8,
    /// The lane within the row, from 0; no other stream has it at the same time.
    pub lane: usize,
    /// The number of the event by which the stream was withdrawn.
    pub since: usize,
    /// The number of the event at which this begins: the withdrawal, a tick, or the first event of a band.
    pub from: usize,
    /// The number of the event at which it ends, or one more than the last event's.
    pub to: usize,
    /// Whether it stands again where a band begins.
    pub carried: bool,
}

/// The drains so far, and those that no event has ended.
#[derive(Default)]
struct Following {
    drains: Vec<Drain>,
    lasting: Vec<usize>,
}

/// The draining of all streams, in the order in which it begins, where bands begin at the events of some numbers.
pub fn drains(events: &[(Call, Reply)], begins: &[usize]) -> Vec<Drain> {
    let mut following = Following::default();
    for (event, (call, reply)) in (1..).zip(events) {
        if begins.contains(&event) {
            following.carry(event);
        }
        if reply.refusal == 0 {
            following.follow(event, call);
        }
    }
    following.end_all(events.len() + 1);
    following.drains
}

impl Following {
    /// Follows what a granted event does to withdrawn streams. By the rule no reservation or arrival is granted while its stream drains: one that is
    /// shows that it drains no longer.
    fn follow(&mut self, event: usize, call: &Call) {
        match *call {
            Call::Open { .. } => _ = self.end_all(event),
            Call::Withdraw { stream } => self.withdraw(event, stream),
            Call::Reserve { stream, .. } | Call::Arrive { stream, .. } => self.end(event, stream),
            Call::Tick => self.tick(event),
            _ => {}
        }
    }

    /// A stream begins to drain, in the first lane that is free.
    fn withdraw(&mut self, event: usize, stream: u8) {
        self.end(event, stream);
        let taken: Vec<usize> = self.lasting.iter().map(|&drain| self.drains[drain].lane).collect();
        let lane = (0..).find(|lane| !taken.contains(lane)).expect("a lane above all that are taken is free");
        self.begin(Drain { stream, ticks: DRAINING_TICKS, lane, since: event, from: event, to: event, carried: false });
    }

    /// Every withdrawn stream is a tick nearer to its end.
    fn tick(&mut self, event: usize) {
        for drain in self.end_all(event) {
            let nearer = Drain { ticks: drain.ticks - 1, from: event, to: event, carried: false, ..drain };
            if nearer.ticks > 0 {
                self.begin(nearer);
            } else {
                self.drains.push(nearer);
            }
        }
    }

    /// A band begins at an event, and the withdrawn streams stand in its first lanes.
    fn carry(&mut self, event: usize) {
        for (lane, drain) in self.end_all(event).into_iter().enumerate() {
            self.begin(Drain { lane, from: event, carried: true, ..drain });
        }
    }

    /// Begins what no event has ended yet.
    fn begin(&mut self, drain: Drain) {
        self.lasting.push(self.drains.len());
        self.drains.push(drain);
    }

    /// Ends the draining of a stream, if it drains.
    fn end(&mut self, event: usize, stream: u8) {
        if let Some(place) = self.lasting.iter().position(|&drain| self.drains[drain].stream == stream) {
            self.drains[self.lasting.remove(place)].to = event;
        }
    }

    /// Ends all that no event has ended yet, and hands it on.
    fn end_all(&mut self, event: usize) -> Vec<Drain> {
        let lasting = mem::take(&mut self.lasting);
        lasting.iter().for_each(|&drain| self.drains[drain].to = event);
        lasting.into_iter().map(|drain| self.drains[drain].clone()).collect()
    }
}

/// What each event of a list ends or brings nearer to its end, in words to stand behind the event's own: nothing, but for ticks.
pub fn notes(events: &[(Call, Reply)]) -> Vec<String> {
    let mut notes = vec![String::new(); events.len()];
    for Drain { stream, ticks, from, .. } in drains(events, &[]).iter().filter(|drain| drain.from != drain.since) {
        notes[from - 1] += &match ticks {
            0 => format!("; stream {stream} is free"),
            1 => format!("; stream {stream} drains for 1 tick more"),
            ticks => format!("; stream {stream} drains for {ticks} ticks more"),
        };
    }
    notes
}

/// What the box of a withdrawn stream says.
pub fn label(drain: &Drain) -> String {
    let Drain { stream, ticks, .. } = drain;
    match ticks {
        0 => format!("{stream}: free"),
        1 => format!("{stream}: 1 tick"),
        ticks => format!("{stream}: {ticks} ticks"),
    }
}

/// What is told of a withdrawn stream.
fn told(drain: &Drain) -> String {
    let Drain { stream, ticks, since, from, .. } = drain;
    match ticks {
        0 => format!("stream {stream}, withdrawn at event {since}: free by the tick at event {from}"),
        1 => format!("stream {stream}, withdrawn at event {since}: drains for 1 tick"),
        ticks => format!("stream {stream}, withdrawn at event {since}: drains for {ticks} ticks"),
    }
}

/// The bars of the streams that drain.
pub fn put_bars(svg: &mut Svg, scene: &Scene, band: &Band) {
    for drain in band.drains(scene).filter(|drain| drain.ticks > 0) {
        let right = if band.events.contains(&drain.to) { band.column_at(drain.to) - BESIDE_BOX } else { band.right() };
        svg.titled(&told(drain), |svg| put_bar(svg, scene.palette, drain.stream.into(), band.drain(drain).middle(), right));
    }
}

/// The boxes of the withdrawn streams.
pub fn put_boxes(svg: &mut Svg, scene: &Scene, band: &Band) {
    for drain in band.drains(scene) {
        svg.titled(&told(drain), |svg| put_box(svg, scene.palette, band.drain(drain), drain));
    }
}

/// The box of a withdrawn stream, in the stream's colours.
pub fn put_box(svg: &mut Svg, palette: &Palette, area: Area, drain: &Drain) {
    svg.area(area, &look(palette, drain.stream.into()));
    svg.text_in(area, LABEL, &label(drain));
}
