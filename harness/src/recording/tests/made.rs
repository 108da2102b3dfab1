//! Recordings as the tests make them, and the captures that they become.

use crate::call::Call;
use crate::capture::reading;
use crate::model::capture::events;
use crate::recording::pcap::Recording;
use crate::recording::plan;
use crate::recording::report::Report;
use crate::recording::turning;

/// The address of these tests.
pub const ADDRESS: [u8; 6] = [0x01, 0x00, 0x5e, 0x00, 0x00, 0x05];

/// A plan with one stream. The link carries 2,500 octets in an epoch, one in 80 nanoseconds, and the share is 480.
pub const PLAN: &str = "epoch 200000\nopen 2500 1\nreserve 5 200\nbind 5 01:00:5e:00:00:05 10\n";

/// The epoch of that plan in nanoseconds.
pub const EPOCH: u64 = 200_000;

/// What a capture begins with under that plan, as text.
pub const BEGINS: &str = "port 0\nopen 2500 1\nreserve 5 200\n";

/// How a recording is written.
#[derive(Clone, Copy)]
pub struct Form {
    pub low_first: bool,
    pub nanoseconds: bool,
    pub version: [u16; 2],
    pub snap_length: u32,
    pub link_type: u32,
}

/// A form with times in nanoseconds, high octets first.
pub const NANOSECONDS: Form = Form { low_first: false, nanoseconds: true, version: [2, 4], snap_length: 65_535, link_type: 1 };

/// The form that most recorders write: microseconds, low octets first.
pub const ORDINARY: Form = Form { low_first: true, nanoseconds: false, ..NANOSECONDS };

impl Form {
    /// A number of two octets.
    fn two(self, number: u16) -> [u8; 2] {
        if self.low_first {
            number.to_le_bytes()
        } else {
            number.to_be_bytes()
        }
    }

    /// A number of four octets.
    pub fn four(self, number: u32) -> [u8; 4] {
        if self.low_first {
            number.to_le_bytes()
        } else {
            number.to_be_bytes()
        }
    }

    /// The header of a recording.
    pub fn header(self) -> Vec<u8> {
        let magic = self.four(if self.nanoseconds { 0xa1b2_3c4d } else { 0xa1b2_c3d4 });
        let version = self.version.map(|number| self.two(number)).concat();
        let numbers = [0, 0, self.snap_length, self.link_type].map(|number| self.four(number)).concat();
        [&magic[..], &version, &numbers].concat()
    }

    /// A packet of a recording with the four numbers of its header as given.
    pub fn packet(self, numbers: [u32; 4], kept: &[u8]) -> Vec<u8> {
        [&numbers.map(|number| self.four(number)).concat()[..], kept].concat()
    }

    /// A packet of a time in nanoseconds, cut at the snap length.
    pub fn packet_at(self, time: u64, octets: &[u8]) -> Vec<u8> {
        let kept = octets.len().min(self.snap_length as usize);
        let part = time % 1_000_000_000 / if self.nanoseconds { 1 } else { 1_000 };
        self.packet([(time / 1_000_000_000) as u32, part as u32, kept as u32, octets.len() as u32], &octets[..kept])
    }

    /// A recording of packets with their times in nanoseconds.
    pub fn recording(self, packets: &[(u64, Vec<u8>)]) -> Vec<u8> {
        let packets = packets.iter().flat_map(|(time, octets)| self.packet_at(*time, octets));
        self.header().into_iter().chain(packets).collect()
    }
}

/// A tagged frame of so many octets, at least 16, with the octets 14 and 15 as a number.
pub fn tagged(address: [u8; 6], control: u16, length: usize) -> Vec<u8> {
    typed(address, [&[0x81, 0x00][..], &control.to_be_bytes()].concat(), length)
}

/// A frame of so many octets, at least 14, of IPv4.
pub fn untagged(length: usize) -> Vec<u8> {
    typed(ADDRESS, vec![0x08, 0x00], length)
}

/// A frame of so many octets with what follows the addresses.
pub fn typed(address: [u8; 6], kind: Vec<u8>, length: usize) -> Vec<u8> {
    let mut octets = [&address[..], &[0x02, 0x00, 0x00, 0x00, 0x00, 0x01], &kind].concat();
    octets.resize(length, 0x55);
    octets
}

/// A frame of so many octets on the stream of the plan.
pub fn streamed(length: usize) -> Vec<u8> {
    tagged(ADDRESS, 10, length)
}

/// The capture of a recording that must be good, and the report.
pub fn captured(plan: &str, recording: &[u8]) -> (Vec<u8>, Report) {
    let plan = plan::read(plan.as_bytes()).unwrap_or_else(|bad| panic!("{bad}, in\n{plan}"));
    Recording::open(recording).and_then(|recording| turning::capture(plan, recording)).unwrap_or_else(|bad| panic!("{bad}"))
}

/// The events of port 0 in the capture of packets, and the report.
pub fn events_of(plan: &str, packets: &[(u64, Vec<u8>)]) -> (Vec<Call>, Report) {
    let (capture, report) = captured(plan, &NANOSECONDS.recording(packets));
    (events(&capture).expect("a good capture").swap_remove(0), report)
}

/// The text form of the capture of packets under the plan, without what it begins with.
pub fn text_of(packets: &[(u64, Vec<u8>)]) -> String {
    let text = reading::text(&captured(PLAN, &NANOSECONDS.recording(packets)).0);
    String::from(text.strip_prefix(BEGINS).expect("the plan's calls come first"))
}
