//! The binding lookup of document 02, "Compare the VLAN id first": the stream that a pair is bound to, and how many address octets were compared to
//! find it, or to find that there is none.

use super::frame::Pair;
use super::port::Stream;
use crate::call::ADDRESS_OCTETS;

/// What a lookup gives: "Beside the stream, the lookup gives exactly the number of address octets so compared."
#[derive(Clone, Copy, Debug, PartialEq, Eq)]
pub struct Found {
    pub stream: Option<usize>,
    pub compared: u32,
}

/// "it should go through the bindings by rising stream up to the one that matches, comparing the VID and, only where that is equal, the address";
/// "the number is the sum over all bindings gone through, found or not".
pub fn lookup(streams: &[Stream], pair: &Pair) -> Found {
    let mut compared = 0;
    for (number, stream) in streams.iter().enumerate() {
        if !stream.is_bound() || stream.vid != pair.vid {
            continue;
        }
        let (octets, equal) = compare(&stream.address, &pair.address);
        compared += octets;
        if equal {
            return Found { stream: Some(number), compared };
        }
    }
    Found { stream: None, compared }
}

/// "the address from its last octet back, up to the first octet that differs": how many octets that compares, and whether all are equal. "The octet
/// that differs has been compared and counts".
fn compare(one: &[u8; ADDRESS_OCTETS], other: &[u8; ADDRESS_OCTETS]) -> (u32, bool) {
    let mut compared = 0;
    for place in (0..ADDRESS_OCTETS).rev() {
        compared += 1;
        if one[place] != other[place] {
            return (compared, false);
        }
    }
    (compared, true)
}
