//! The picture of a port's events, for a reader who looks in which epoch a frame is sent and where a tick falls between two frames; and the same in
//! words.
//!
//! `following` follows each frame by the replies, `draining` each withdrawn stream, `headings` says what heads an event's column, `bands` where
//! everything stands, `drawing` and `frames` draw it, `legend` tells what the marks mean, `page` puts it together, `look` has sizes and colours,
//! `svg` the file's elements, `words` calls and replies in words. captures/README.md says what the tool is given and what it tells.

use std::fmt;
use std::ops::RangeInclusive;

use crate::call::{Call, Reply};
use crate::model::port::Port;
use crate::model::rule;
use crate::timeline::page::Part;

pub mod bands;
pub mod draining;
pub mod drawing;
pub mod following;
pub mod frames;
pub mod headings;
pub mod legend;
pub mod look;
pub mod page;
pub mod svg;
#[cfg(test)]
mod tests;
pub mod tool;
pub mod words;

/// How many events of a port a picture shows at most, and how many frames that wait in one queue at once.
pub const MOST: usize = 64;

/// What a picture would have too many of.
#[derive(Clone, Debug, PartialEq, Eq)]
pub enum TooMany {
    /// Events of the port that were to be shown.
    Events { port: usize, shown: RangeInclusive<usize> },
    /// Frames that wait in the queue of a role at an event.
    Frames { port: usize, event: usize, role: &'static str },
}

impl fmt::Display for TooMany {
    fn fmt(&self, f: &mut fmt::Formatter<'_>) -> fmt::Result {
        match self {
            TooMany::Events { port, shown } => {
                let (first, last) = (shown.start(), shown.end());
                write!(
                    f,
                    "{} events of port {port}, {first} to {last}, are to be drawn, and a picture shows at most {MOST}",
                    last + 1 - first
                )
            }
            TooMany::Frames { port, event, role } => {
                write!(f, "at event {event} of port {port} more than {MOST} frames wait in {role}, and a picture shows at most {MOST}")
            }
        }
    }
}

/// The events of a port in their order, each with the rule's reply.
pub fn replied(events: &[Call]) -> Vec<(Call, Reply)> {
    let mut port = Port::closed();
    events.iter().map(|event| (event.clone(), rule::step(&event.given(), &mut port))).collect()
}

/// The picture, as the text of an SVG file, of those events of a port that are shown by their numbers. The events are all that the port had, from its
/// first on, with their replies, since what waits when the first one that is shown comes depends on those before it. They are events of a capture, so
/// none is a Bind or a Frame.
pub fn drawn(port: usize, events: &[(Call, Reply)], shown: RangeInclusive<usize>, title: &str) -> Result<String, TooMany> {
    let shown = (*shown.start()).max(1)..=(*shown.end()).min(events.len());
    page::picture(&[Part { port, events, shown }], title)
}
