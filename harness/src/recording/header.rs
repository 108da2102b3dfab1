//! The header of a recording, which says what sort of pcap file it is; other files are named where they are known.

use crate::recording::header::Order::{HighFirst, LowFirst};

/// The octets of the header.
pub const HEADER: usize = 24;
/// Where the two numbers of the version stand in it, two octets each.
const VERSION_AT: [usize; 2] = [4, 6];
/// Where the snap length stands in it, four octets.
const SNAP_LENGTH_AT: usize = 16;
/// Where the link type stands in it, four octets.
const LINK_TYPE_AT: usize = 20;

/// The first number of the version that is read.
const VERSION: u16 = 2;
/// The greatest snap length that recorders use; a packet that has more octets, and more than the file's own snap length, is none.
const GREATEST_SNAP_LENGTH: u32 = 262_144;
/// The bits of the link type itself, and Ethernet there.
const LINK_TYPE_BITS: u32 = 0x0000_ffff;
const ETHERNET: u32 = 1;
/// The bit that says that packets end with a check sequence, and where its length stands, in units of two octets.
const CHECK_SEQUENCE_BIT: u32 = 0x0400_0000;
const CHECK_SEQUENCE_SHIFT: u32 = 28;
const CHECK_SEQUENCE_UNIT: u32 = 2;
/// The lengths of a check sequence that Ethernet can have: none, or four octets.
const CHECK_SEQUENCES: [u32; 2] = [0, 4];

/// The first octets of recordings: the byte order, and the nanoseconds in a unit of a second's part.
const SORTS: [([u8; 4], Order, u64); 4] = [
    ([0xa1, 0xb2, 0xc3, 0xd4], HighFirst, 1_000),
    ([0xd4, 0xc3, 0xb2, 0xa1], LowFirst, 1_000),
    ([0xa1, 0xb2, 0x3c, 0x4d], HighFirst, 1),
    ([0x4d, 0x3c, 0xb2, 0xa1], LowFirst, 1),
];

/// The first octets of other files that may be taken for recordings.
const FOREIGN: [(&[u8], &str); 6] = [
    (&[0x0a, 0x0d, 0x0d, 0x0a], "it is a pcapng file, and the older pcap format is read"),
    (&[0xa1, 0xb2, 0xcd, 0x34], "it is a pcap file of a modified sort, with longer packet headers"),
    (&[0x34, 0xcd, 0xb2, 0xa1], "it is a pcap file of a modified sort, with longer packet headers"),
    (&[0x1f, 0x8b], "it is compressed by gzip"),
    (b"snoop", "it is a snoop file"),
    (b"EPCH", "it is a capture already"),
];

/// The order of a number's octets.
#[derive(Clone, Copy)]
pub enum Order {
    HighFirst,
    LowFirst,
}

/// What a header says of the packets.
pub struct Header {
    pub order: Order,
    /// The nanoseconds in a unit of a second's part.
    pub unit: u64,
    /// The most octets that can be kept of a packet.
    pub most_kept: u32,
    /// The octets of the check sequence with which each packet ends.
    pub check_sequence: u32,
}

impl Header {
    /// Reads the first octets of a file, so many as a header has, or fewer where the file does.
    pub fn read(octets: &[u8]) -> Result<Header, String> {
        let (order, unit) = sort(octets)?;
        if octets.len() < HEADER {
            return Err(format!("the file ends after {} of its {HEADER} octets", octets.len()));
        }
        let [major, minor] = VERSION_AT.map(|at| order.two(octets, at));
        if major != VERSION {
            return Err(format!("its version is {major}.{minor}, and {VERSION}.4 or an earlier {VERSION} is read"));
        }
        let check_sequence = check_sequence(order.four(octets, LINK_TYPE_AT))?;
        let most_kept = order.four(octets, SNAP_LENGTH_AT).max(GREATEST_SNAP_LENGTH);
        Ok(Header { order, unit, most_kept, check_sequence })
    }
}

impl Order {
    /// The number of two octets at a place.
    fn two(self, octets: &[u8], at: usize) -> u16 {
        let number = octets[at..at + 2].try_into().expect("two octets");
        match self {
            HighFirst => u16::from_be_bytes(number),
            LowFirst => u16::from_le_bytes(number),
        }
    }

    /// The number of four octets at a place.
    pub fn four(self, octets: &[u8], at: usize) -> u32 {
        let number = octets[at..at + 4].try_into().expect("four octets");
        match self {
            HighFirst => u32::from_be_bytes(number),
            LowFirst => u32::from_le_bytes(number),
        }
    }
}

/// The sort of a recording by its first octets: the byte order, and the nanoseconds in a unit of a second's part.
fn sort(octets: &[u8]) -> Result<(Order, u64), String> {
    if let Some((_, order, unit)) = SORTS.iter().find(|(first, ..)| octets.starts_with(first)) {
        return Ok((*order, *unit));
    }
    let known = FOREIGN.iter().find(|(first, _)| octets.starts_with(first));
    Err(match known {
        Some((_, what)) => String::from(*what),
        None if octets.len() < HEADER => format!("the file has {} octets, fewer than the {HEADER} of a header", octets.len()),
        None => String::from("it does not begin as a pcap file does"),
    })
}

/// The octets of the check sequence with which packets end, by the link type, which must be Ethernet's.
fn check_sequence(link_type: u32) -> Result<u32, String> {
    if link_type & LINK_TYPE_BITS != ETHERNET {
        return Err(format!("its link type is {}, and Ethernet's is {ETHERNET}", link_type & LINK_TYPE_BITS));
    }
    let units = if link_type & CHECK_SEQUENCE_BIT == 0 { 0 } else { link_type >> CHECK_SEQUENCE_SHIFT };
    let octets = units * CHECK_SEQUENCE_UNIT;
    match CHECK_SEQUENCES.contains(&octets) {
        true => Ok(octets),
        false => Err(format!("its packets have a check sequence of {octets} octets, and Ethernet's has 4")),
    }
}
