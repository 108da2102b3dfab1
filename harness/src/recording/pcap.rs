//! Reads a recording, packet by packet: a file in the ordinary pcap format, of either byte order, in microseconds or nanoseconds. Of a packet's
//! octets the first few are read and the rest is passed over, so a recording may be of any length.

use std::fmt;
use std::io::{self, Read};

use crate::recording::header::{Header, HEADER};

/// How many of a frame's first octets are read: as far as document 01's Frame looks.
pub const FRONT: usize = 16;

/// The octets of a packet's header: seconds, their part, octets kept, octets on the wire, four octets each.
const PACKET_HEADER: usize = 16;
const SECONDS_AT: usize = 0;
const PART_AT: usize = 4;
const KEPT_AT: usize = 8;
const LENGTH_AT: usize = 12;

/// The nanoseconds of a second.
const SECOND: u64 = 1_000_000_000;

/// A packet of a recording.
#[derive(Clone, Debug, PartialEq, Eq)]
pub struct Packet {
    /// Its number in the recording, from 1.
    pub number: u64,
    /// Its time in nanoseconds.
    pub time: u64,
    /// Its octets on the wire, without check sequence.
    pub length: u32,
    /// Its first octets, and zeros where it has fewer.
    pub front: [u8; FRONT],
}

/// What is wrong with a recording: the packet's number, or none for the header, and the octet of the file, from 0, where that begins.
#[derive(Clone, Debug, PartialEq, Eq)]
pub struct BadRecording {
    pub packet: Option<u64>,
    pub octet: u64,
    pub what: String,
}

impl fmt::Display for BadRecording {
    fn fmt(&self, f: &mut fmt::Formatter<'_>) -> fmt::Result {
        match self.packet {
            None => write!(f, "the recording's header, at octet {}: {}", self.octet, self.what),
            Some(number) => write!(f, "packet {number}, at octet {}: {}", self.octet, self.what),
        }
    }
}

/// A recording that is being read.
pub struct Recording<R> {
    input: R,
    header: Header,
    /// How many packets were begun.
    packets: u64,
    /// The octet where the packet begins that is read next.
    at: u64,
}

impl<R: Read> Recording<R> {
    /// Reads the header of a recording.
    pub fn open(mut input: R) -> Result<Recording<R>, BadRecording> {
        let header = read(&mut input, HEADER).and_then(|octets| Header::read(&octets));
        let header = header.map_err(|what| BadRecording { packet: None, octet: 0, what })?;
        Ok(Recording { input, header, packets: 0, at: HEADER as u64 })
    }

    /// The next packet, or none at the end of the file.
    fn packet(&mut self) -> Result<Option<Packet>, String> {
        let octets = read(&mut self.input, PACKET_HEADER)?;
        if octets.is_empty() {
            return Ok(None);
        }
        if octets.len() < PACKET_HEADER {
            return Err(format!("the file ends after {} of the {PACKET_HEADER} octets of its header", octets.len()));
        }
        let [seconds, part, kept, length] = [SECONDS_AT, PART_AT, KEPT_AT, LENGTH_AT].map(|at| self.header.order.four(&octets, at));
        let time = self.time(seconds, part)?;
        let length = self.length(kept, length)?;
        let front = self.front(kept, length)?;
        self.at += PACKET_HEADER as u64 + u64::from(kept);
        Ok(Some(Packet { number: self.packets, time, length, front }))
    }

    /// The time of a packet in nanoseconds.
    fn time(&self, seconds: u32, part: u32) -> Result<u64, String> {
        let nanoseconds = u64::from(part) * self.header.unit;
        match nanoseconds < SECOND {
            true => Ok(u64::from(seconds) * SECOND + nanoseconds),
            false => Err(format!("its time has {part} parts of a second, which has {}", SECOND / self.header.unit)),
        }
    }

    /// The length of a packet on the wire, without check sequence, where both its lengths can be.
    fn length(&self, kept: u32, length: u32) -> Result<u32, String> {
        let Header { most_kept, check_sequence, .. } = self.header;
        if kept > length {
            return Err(format!("{kept} octets are kept of its {length}"));
        }
        if kept > most_kept {
            return Err(format!("{kept} octets are kept, and a packet of this recording has at most {most_kept}"));
        }
        let without = length.checked_sub(check_sequence);
        without.ok_or_else(|| format!("its {length} octets are fewer than the {check_sequence} of the check sequence"))
    }

    /// The first octets of a packet; all others that were kept are passed over.
    fn front(&mut self, kept: u32, length: u32) -> Result<[u8; FRONT], String> {
        let needed = FRONT.min(length as usize);
        if (kept as usize) < needed {
            return Err(format!("{kept} octets are kept, and its first {needed} are needed"));
        }
        let octets = read(&mut self.input, needed)?;
        let rest = u64::from(kept) - needed as u64;
        let passed = pass_over(&mut self.input, rest)?;
        if octets.len() < needed || passed < rest {
            return Err(format!("the file ends after {} of the {kept} octets that are kept", octets.len() as u64 + passed));
        }
        let mut front = [0; FRONT];
        front[..needed].copy_from_slice(&octets);
        Ok(front)
    }
}

impl<R: Read> Iterator for Recording<R> {
    type Item = Result<Packet, BadRecording>;

    fn next(&mut self) -> Option<Self::Item> {
        self.packets += 1;
        let packet = self.packet();
        packet.map_err(|what| BadRecording { packet: Some(self.packets), octet: self.at, what }).transpose()
    }
}

/// The next octets of an input, so many or as many as there are.
fn read(input: &mut impl Read, count: usize) -> Result<Vec<u8>, String> {
    let mut octets = Vec::new();
    input.take(count as u64).read_to_end(&mut octets).map_err(failed)?;
    Ok(octets)
}

/// Passes over so many octets of an input, or as many as there are; how many.
fn pass_over(input: &mut impl Read, count: u64) -> Result<u64, String> {
    io::copy(&mut input.take(count), &mut io::sink()).map_err(failed)
}

/// What is said of an input that fails.
fn failed(why: io::Error) -> String {
    format!("reading fails: {why}")
}
