//! A frame by its octets: document 01, "Frames and captures", what Frame reads of a header, and the charge of a frame by its length, which document
//! 02, "Envelope frames", allows "up to 2,000 octets with check sequence".

use std::ops::RangeInclusive;

use super::octets::{number, TWO};
use super::port::{LARGEST_CHARGE, LEAST_CHARGE};
use crate::call::ADDRESS_OCTETS;

/// "plus 4 for the check sequence".
const CHECK_SEQUENCE: u32 = 4;
/// "plus 20 for preamble and gap".
const PREAMBLE_AND_GAP: u32 = 20;
/// What a frame costs on the wire beside its octets.
const BESIDE_ITS_OCTETS: u32 = CHECK_SEQUENCE + PREAMBLE_AND_GAP;
/// "17 (60 to 1,996)": the lengths without check sequence whose charge a frame may have.
pub const FRAME_LENGTHS: RangeInclusive<usize> =
    (LEAST_CHARGE - BESIDE_ITS_OCTETS) as usize..=(LARGEST_CHARGE - BESIDE_ITS_OCTETS) as usize;
/// "If octets 12 and 13 are 81 00 (hexadecimal)".
const TAG_AT: usize = 12;
const TAG: [u8; 2] = [0x81, 0x00];
/// "the VID is the low 12 bits of octets 14 and 15, high octet first".
const VID_AT: usize = 14;
const VID_BITS: u32 = 0x0fff;

/// What Bind gives a stream: "a destination address of six octets and a VLAN id".
#[derive(Clone, Copy, Debug, PartialEq, Eq, Hash)]
pub struct Pair {
    pub address: [u8; ADDRESS_OCTETS],
    pub vid: u32,
}

/// "A charge is the octets that a frame costs on the wire: its length without check sequence, plus 4 for the check sequence, plus 20 for preamble
/// and gap", of a frame whose length is in its range.
pub fn charge(octets: &[u8]) -> u32 {
    octets.len() as u32 + BESIDE_ITS_OCTETS
}

/// "octets 0 to 5 are the destination", and the VID of a tagged frame whose length is in its range; nothing where it is not tagged.
pub fn pair(octets: &[u8]) -> Option<Pair> {
    if octets[TAG_AT..TAG_AT + TAG.len()] != TAG {
        return None;
    }
    let address = octets[..ADDRESS_OCTETS].try_into().expect("six octets");
    let vid = number(octets, VID_AT, TWO) & VID_BITS;
    Some(Pair { address, vid })
}
