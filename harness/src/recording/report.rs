//! What became of a recording's packets, and of the plan's withdrawals, in numbers and in words.

use std::fmt;

use crate::capture::file::MOST_RECORDS;
use crate::model::frame::FRAME_LENGTHS;
use crate::model::refusal::{self, FRAME_LENGTH};

/// How many packets a line of a report names at most.
const NAMED: usize = 5;

/// Packets that something befell: how many, and the numbers of the first few.
#[derive(Clone, Debug, Default, PartialEq, Eq)]
pub struct Packets {
    pub count: u64,
    pub first: Vec<u64>,
}

/// What became of the packets of a recording.
#[derive(Clone, Debug, Default, PartialEq, Eq)]
pub struct Report {
    /// The packets of the recording: each is an arrival, best effort, refused or left out.
    pub packets: u64,
    pub arrivals: u64,
    pub best_effort: u64,
    /// Those that Frame would refuse with 17.
    pub refused: Packets,
    /// Those for which the capture has no room.
    pub left_out: Packets,
    /// Those arrivals and best effort that were padded.
    pub padded: Packets,
    /// Those whose time is before that of an earlier packet.
    pub earlier: Packets,
    /// How many frames still wait in a capture that has no room for the transmits.
    pub waiting: usize,
    /// The streams whose withdrawal comes after the end of the capture.
    pub not_withdrawn: Vec<u8>,
    /// The epochs of the capture, the last one included.
    pub epochs: u64,
    pub events: usize,
}

impl Packets {
    /// Adds the packet of a number.
    pub fn add(&mut self, number: u64) {
        self.count += 1;
        if self.first.len() < NAMED {
            self.first.push(number);
        }
    }
}

impl Report {
    /// Whether every packet and withdrawal is in the capture, and every frame that waits there is sent.
    pub fn is_whole(&self) -> bool {
        self.refused.count == 0 && self.left_out.count == 0 && self.waiting == 0 && self.not_withdrawn.is_empty()
    }
}

/// The packets by their numbers, as far as they are named.
impl fmt::Display for Packets {
    fn fmt(&self, f: &mut fmt::Formatter<'_>) -> fmt::Result {
        let named: Vec<String> = self.first.iter().map(|number| format!("packet {number}")).collect();
        let more = if self.count > NAMED as u64 { " and more" } else { "" };
        write!(f, "{}{more}", named.join(", "))
    }
}

/// A line for each thing of which there is something to tell, and one that sums up.
impl fmt::Display for Report {
    fn fmt(&self, f: &mut fmt::Formatter<'_>) -> fmt::Result {
        let Report { packets, arrivals, best_effort, refused, left_out, padded, earlier, waiting, not_withdrawn, epochs, events } = self;
        let told = [
            (format!("padded to {} octets", FRAME_LENGTHS.start()), padded),
            (format!("{}, and not in the capture", refusal::told(FRAME_LENGTH)), refused),
            (String::from("earlier than a packet before, and taken as of its time"), earlier),
        ];
        for (what, packets) in told.into_iter().filter(|(_, packets)| packets.count > 0) {
            writeln!(f, "{} {what}: {packets}", packets.count)?;
        }
        if let Some(first) = left_out.first.first() {
            writeln!(f, "{} left out, since a capture has at most {MOST_RECORDS} events: packet {first} and all after it", left_out.count)?;
        }
        if *waiting > 0 {
            writeln!(f, "{waiting} accepted and not sent, since a capture has at most {MOST_RECORDS} events")?;
        }
        if !not_withdrawn.is_empty() {
            let named: Vec<String> = not_withdrawn.iter().map(|stream| format!("stream {stream}")).collect();
            writeln!(f, "{} not withdrawn, since the capture ends before: {}", not_withdrawn.len(), named.join(", "))?;
        }
        write!(f, "packets {packets}: arrivals {arrivals}, best effort {best_effort}, refused {}, ", refused.count)?;
        write!(f, "left out {}; padded {}, epochs {epochs}, events {events}", left_out.count, padded.count)
    }
}
