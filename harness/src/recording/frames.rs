//! The frame that a port would get of a packet: padded where it was recorded before it was, or none where Frame would refuse it.

use crate::model::frame::FRAME_LENGTHS;
use crate::recording::pcap::Packet;

/// The octets of an Ethernet header, two addresses and a type; a sender pads what follows them, so a packet of fewer was no frame.
const ETHERNET_HEADER: usize = 14;

/// The octets of a frame as Frame gets them, and whether padding was added.
#[derive(Clone, Debug, PartialEq, Eq)]
pub struct Frame {
    pub octets: Vec<u8>,
    pub padded: bool,
}

/// The frame of a packet, or none where Frame would refuse it: "17 frame outside 60 to 1,996 octets". Its first octets are those of the packet, all
/// that Frame reads; the others are zeros, as many as the packet had on the wire, and up to 60 those of padding.
pub fn frame(packet: &Packet) -> Option<Frame> {
    let (length, least) = (packet.length as usize, *FRAME_LENGTHS.start());
    let padded = (ETHERNET_HEADER..least).contains(&length);
    let length = if padded { least } else { length };
    if !FRAME_LENGTHS.contains(&length) {
        return None;
    }
    let mut octets = vec![0; length];
    octets[..packet.front.len()].copy_from_slice(&packet.front);
    Some(Frame { octets, padded })
}
