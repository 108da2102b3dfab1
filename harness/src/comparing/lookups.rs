//! Lookups of pairs near what is bound, and what a lookup met in a record of any content. The numbers of document 02, "Compare the VLAN id first",
//! stand here as numbers, not as the model's.

use std::fmt;

use crate::call::{Call, Reply, ADDRESS_OCTETS};
use crate::comparing::calls::OVER_TWO_OCTETS;
use crate::comparing::coverage::{Coverage, Seen};
use crate::comparing::fit::{any_binding, binding, bindings, is_bound, Binding};
use crate::comparing::random::Random;
use crate::layout::{entry, is_draining, is_reserved, BOUND, OPEN};
use crate::model::octets::PORT_OCTETS;
use crate::model::port::STREAMS;

/// What a lookup replies in the place of a stream where it finds none.
pub const NONE: u32 = 255;

/// What a lookup can be or meet.
#[derive(Clone, Copy, Debug, PartialEq, Eq, PartialOrd, Ord)]
pub enum Looked {
    /// It finds a stream.
    Found,
    /// It finds none, and compared no octet of an address.
    NoneByVid,
    /// It finds none, and compared octets of addresses.
    NoneByAddress,
    /// It finds a stream that drains.
    FoundDraining,
    /// It finds a stream that is bound and not reserved.
    FoundUnreserved,
    /// It finds a stream, and a later one is bound to the same pair.
    FoundFirstOfSeveral,
    /// It goes past a binding of the same VID whose address differs from its last octet back first in this one.
    PastAddressOctet(usize),
    /// It goes past a binding of the same address and another VID.
    PastSameAddress,
    /// It goes past a binding of the same VID whose stream drains.
    PastDraining,
    /// It goes past an entry of the same pair whose bound mark is neither 0 nor 1.
    PastOtherMark,
    /// It is made on a closed port.
    OnClosed,
    /// Its VID is one that no entry holds: above 65,535.
    VidAbove,
    /// It is refused, with 19.
    Refused,
}

impl fmt::Display for Looked {
    fn fmt(&self, f: &mut fmt::Formatter<'_>) -> fmt::Result {
        match self {
            Looked::Found => write!(f, "that find a stream"),
            Looked::NoneByVid => write!(f, "that find none by the VID"),
            Looked::NoneByAddress => write!(f, "that find none by the address"),
            Looked::FoundDraining => write!(f, "that find a draining stream"),
            Looked::FoundUnreserved => write!(f, "that find an unreserved stream"),
            Looked::FoundFirstOfSeveral => write!(f, "that find the first of several"),
            Looked::PastAddressOctet(octet) => write!(f, "past a binding apart in octet {octet}"),
            Looked::PastSameAddress => write!(f, "past a binding apart in the VID alone"),
            Looked::PastDraining => write!(f, "past a draining stream's binding"),
            Looked::PastOtherMark => write!(f, "past a mark that is neither 0 nor 1"),
            Looked::OnClosed => write!(f, "on a closed port"),
            Looked::VidAbove => write!(f, "of a VID above 65,535"),
            Looked::Refused => write!(f, "refused"),
        }
    }
}

/// A lookup of a pair that is bound, or of one near to such a pair; one at an edge has a VID that can not be bound.
pub fn any_lookup(random: &mut Random, record: &[u8], edge: bool) -> Call {
    let bindings = bindings(record);
    let binding = match bindings.is_empty() || random.chance(50) {
        true => any_binding(random, &bindings),
        false => random.pick(&bindings),
    };
    let (address, vid) = pair_of(&binding);
    let vid = if edge { random.pick(&[0, 4_095, OVER_TWO_OCTETS - 1, OVER_TWO_OCTETS + vid, u32::MAX]) } else { vid };
    Call::Lookup { address, vid }
}

/// Lookups of a pair that is bound, if one is, and of all that is near to it: each octet of the address changed, another VID, one that differs in an
/// octet of it alone, and VIDs that can not be bound.
pub fn lookups_near(random: &mut Random, record: &[u8]) -> Vec<Call> {
    let bindings = bindings(record);
    let binding = if bindings.is_empty() { any_binding(random, &bindings) } else { random.pick(&bindings) };
    let (address, vid) = pair_of(&binding);
    let other_vids = [vid ^ 1, vid ^ 0x100, 0, 4_095, OVER_TWO_OCTETS - 1, OVER_TWO_OCTETS + vid, u32::MAX];
    let mut pairs: Vec<_> = [vid].into_iter().chain(other_vids).map(|vid| (address, vid)).collect();
    for octet in 0..ADDRESS_OCTETS {
        let mut other = address;
        other[octet] = random.other_octet(other[octet]);
        pairs.push((other, vid));
    }
    pairs.push(pair_of(&any_binding(random, &bindings)));
    pairs.into_iter().map(|(address, vid)| Call::Lookup { address, vid }).collect()
}

/// Address and VID of a binding as it stands in a stream's entry.
pub fn pair_of(binding: &Binding) -> ([u8; ADDRESS_OCTETS], u32) {
    let [high, low, address @ ..] = *binding;
    (address, u32::from(high) * 256 + u32::from(low))
}

impl Coverage {
    /// Counts a lookup, by what it replies and what stands in the record that it was made on.
    pub fn count_lookup(&mut self, address: &[u8; ADDRESS_OCTETS], vid: u32, reply: &Reply, record: &[u8]) {
        let mut count = |seen: bool, looked: Looked| self.add(Seen::Lookup(looked), u64::from(seen));
        count(reply.refusal != 0, Looked::Refused);
        if reply.refusal != 0 || record.len() < PORT_OCTETS {
            return;
        }
        let stream = reply.first as usize;
        let found = stream < STREAMS;
        count(found, Looked::Found);
        count(!found && reply.second == 0, Looked::NoneByVid);
        count(!found && reply.second > 0, Looked::NoneByAddress);
        count(found && is_draining(record, stream), Looked::FoundDraining);
        count(found && !is_reserved(record, stream), Looked::FoundUnreserved);
        let again = |other: usize| is_bound(record, other) && binding(record, other) == binding(record, stream);
        count(found && (stream + 1..STREAMS).any(again), Looked::FoundFirstOfSeveral);
        count(record[OPEN] != 1, Looked::OnClosed);
        count(vid >= OVER_TWO_OCTETS, Looked::VidAbove);
        (0..stream.min(STREAMS)).for_each(|passed| self.count_passed(address, vid, record, passed));
    }

    /// Counts an entry that a lookup goes past.
    fn count_passed(&mut self, address: &[u8; ADDRESS_OCTETS], vid: u32, record: &[u8], stream: usize) {
        let mut count = |seen: bool, looked: Looked| self.add(Seen::Lookup(looked), u64::from(seen));
        let (held, held_vid) = pair_of(&binding(record, stream));
        let mark = record[entry(stream) + BOUND];
        count(mark > 1 && held == *address && held_vid == vid, Looked::PastOtherMark);
        if mark != 1 {
            return;
        }
        count(held == *address && held_vid != vid, Looked::PastSameAddress);
        count(held_vid == vid && is_draining(record, stream), Looked::PastDraining);
        let apart = (0..ADDRESS_OCTETS).rfind(|&octet| held[octet] != address[octet]);
        apart.into_iter().for_each(|octet| count(held_vid == vid, Looked::PastAddressOctet(octet)));
    }
}
