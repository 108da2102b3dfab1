//! The exported calls of the proved port, each wrapped for a port and a memory of the right lengths: the one module with `unsafe` in it.
//!
//! What `include/bunnysolder.h` asks of C ("What C has to keep") the types ask here. Port, memory, address and the two numbers are references:
//! none is null, each reaches as far as its type says, what a call writes overlaps nothing else and is nobody else's meanwhile, and what it only reads
//! nobody writes. What is left to be seen at each call is that each length is that of what it follows.

use crate::refusal::Refusal;
use crate::reply::{outside, Numbers};

/// The octets of a port: its record, and after it its register block.
const PORT_OCTETS: usize = 1_616;
/// The octets of the memory for 1,280 frames.
const MEMORY_OCTETS: usize = 10_240;
/// The octets of a destination address.
pub const ADDRESS_OCTETS: usize = 6;

/// The octets that a port is lent for its record and its register block.
pub type PortOctets = [u8; PORT_OCTETS];
/// The memory for the waiting frames.
pub type Memory = [u8; MEMORY_OCTETS];
/// A destination address: "six octets".
pub type Address = [u8; ADDRESS_OCTETS];

/// A port that is closed, whose record is fit for the memory below (`fresh-fits`, crates/port_laws/proofs/FreshFit.antt).
pub const CLOSED_PORT: PortOctets = [0; PORT_OCTETS];
/// The memory of such a port.
pub const EMPTY_MEMORY: Memory = [0; MEMORY_OCTETS];

/// What a call replies: its two numbers, or its refusal.
type Replied = Result<Numbers, Refusal>;

/// Declares exported calls that are lent a memory, each with its port, its memory and its own arguments between those that all of them have.
macro_rules! declare {
    ($($call:ident: $port:ty, $memory:ty, ($($argument:ident: $kind:ty),*);)*) => {
        extern "C" {$(
            fn $call(
                port: $port, port_length: usize, memory: $memory, memory_length: usize, $($argument: $kind,)* first: &mut u32, second: &mut u32,
            ) -> u8;
        )*}
    };
}

declare! {
    bunnysolder_open: &mut PortOctets, &Memory, (link: u32, delay: u32);
    bunnysolder_reserve_unscanned: &mut PortOctets, &Memory, (stream: u8, permitted: u32);
    bunnysolder_arrive_unscanned: &mut PortOctets, &mut Memory, (stream: u8, charge: u32, tag: u32);
    bunnysolder_tick_unscanned: &mut PortOctets, &Memory, ();
    bunnysolder_transmit_unscanned: &mut PortOctets, &Memory, ();
    bunnysolder_best_effort_unscanned: &mut PortOctets, &mut Memory, (charge: u32, tag: u32);
    bunnysolder_bind_unscanned: &mut PortOctets, &Memory, (stream: u8, address: &Address, vid: u32);
    bunnysolder_frame_unscanned: &mut PortOctets, &mut Memory, (octets: *const u8, octets_length: usize, tag: u32);
    bunnysolder_withdraw_unscanned: &mut PortOctets, &Memory, (stream: u8);
    bunnysolder_register_read_unscanned: &PortOctets, &Memory, (offset: u32);
    bunnysolder_register_write_unscanned: &mut PortOctets, &Memory, (offset: u32, value: u32);
}

extern "C" {
    /// The exported calls that are lent no memory.
    fn bunnysolder_lookup(port: &PortOctets, port_length: usize, address: &Address, vid: u32, first: &mut u32, second: &mut u32) -> u8;
    fn bunnysolder_stream_counts(port: &PortOctets, port_length: usize, stream: u8, first: &mut u32, second: &mut u32) -> u8;
}

/// Lends a call its two numbers, and reads what it returned and left there.
fn replied(call: impl FnOnce(&mut u32, &mut u32) -> u8) -> Replied {
    let (mut first, mut second) = (0, 0);
    match call(&mut first, &mut second) {
        0 => Ok((first, second)),
        number => Err(Refusal::from_number(number).unwrap_or_else(|| outside(&format!("the refusal {number}")))),
    }
}

/// Open(L, K), the call that scans the record first.
pub fn open(port: &mut PortOctets, memory: &Memory, link: u32, delay: u32) -> Replied {
    // SAFETY: the two lengths are those of the port's and the memory's types.
    replied(|first, second| unsafe { bunnysolder_open(port, PORT_OCTETS, memory, MEMORY_OCTETS, link, delay, first, second) })
}

/// The quick Reserve(s, P).
pub fn reserve(port: &mut PortOctets, memory: &Memory, stream: u8, permitted: u32) -> Replied {
    replied(|first, second| {
        // SAFETY: the two lengths are those of the port's and the memory's types.
        unsafe { bunnysolder_reserve_unscanned(port, PORT_OCTETS, memory, MEMORY_OCTETS, stream, permitted, first, second) }
    })
}

/// The quick Arrive(s, a, tag).
pub fn arrive(port: &mut PortOctets, memory: &mut Memory, stream: u8, charge: u32, tag: u32) -> Replied {
    replied(|first, second| {
        // SAFETY: the two lengths are those of the port's and the memory's types.
        unsafe { bunnysolder_arrive_unscanned(port, PORT_OCTETS, memory, MEMORY_OCTETS, stream, charge, tag, first, second) }
    })
}

/// The quick Tick.
pub fn tick(port: &mut PortOctets, memory: &Memory) -> Replied {
    // SAFETY: the two lengths are those of the port's and the memory's types.
    replied(|first, second| unsafe { bunnysolder_tick_unscanned(port, PORT_OCTETS, memory, MEMORY_OCTETS, first, second) })
}

/// The quick Transmit.
pub fn transmit(port: &mut PortOctets, memory: &Memory) -> Replied {
    // SAFETY: the two lengths are those of the port's and the memory's types.
    replied(|first, second| unsafe { bunnysolder_transmit_unscanned(port, PORT_OCTETS, memory, MEMORY_OCTETS, first, second) })
}

/// The quick Best effort(a, tag).
pub fn best_effort(port: &mut PortOctets, memory: &mut Memory, charge: u32, tag: u32) -> Replied {
    replied(|first, second| {
        // SAFETY: the two lengths are those of the port's and the memory's types.
        unsafe { bunnysolder_best_effort_unscanned(port, PORT_OCTETS, memory, MEMORY_OCTETS, charge, tag, first, second) }
    })
}

/// The quick Bind(s, address, VID).
pub fn bind(port: &mut PortOctets, memory: &Memory, stream: u8, address: &Address, vid: u32) -> Replied {
    replied(|first, second| {
        // SAFETY: the two lengths are those of the port's and the memory's types; an address has six octets, as the header asks.
        unsafe { bunnysolder_bind_unscanned(port, PORT_OCTETS, memory, MEMORY_OCTETS, stream, address, vid, first, second) }
    })
}

/// The quick Frame(octets, tag).
pub fn frame(port: &mut PortOctets, memory: &mut Memory, octets: &[u8], tag: u32) -> Replied {
    let (begin, length) = (octets.as_ptr(), octets.len());
    replied(|first, second| {
        // SAFETY: the two lengths are those of the port's and the memory's types; the octets' pointer and length are those of a slice, whose
        // pointer is never null and which nobody writes while it is lent.
        unsafe { bunnysolder_frame_unscanned(port, PORT_OCTETS, memory, MEMORY_OCTETS, begin, length, tag, first, second) }
    })
}

/// The quick Withdraw(s).
pub fn withdraw(port: &mut PortOctets, memory: &Memory, stream: u8) -> Replied {
    // SAFETY: the two lengths are those of the port's and the memory's types.
    replied(|first, second| unsafe { bunnysolder_withdraw_unscanned(port, PORT_OCTETS, memory, MEMORY_OCTETS, stream, first, second) })
}

/// The quick Register read(offset), which writes neither port nor memory.
pub fn register_read(port: &PortOctets, memory: &Memory, offset: u32) -> Replied {
    // SAFETY: the two lengths are those of the port's and the memory's types.
    replied(|first, second| unsafe { bunnysolder_register_read_unscanned(port, PORT_OCTETS, memory, MEMORY_OCTETS, offset, first, second) })
}

/// The quick Register write(offset, value).
pub fn register_write(port: &mut PortOctets, memory: &Memory, offset: u32, value: u32) -> Replied {
    replied(|first, second| {
        // SAFETY: the two lengths are those of the port's and the memory's types.
        unsafe { bunnysolder_register_write_unscanned(port, PORT_OCTETS, memory, MEMORY_OCTETS, offset, value, first, second) }
    })
}

/// Lookup(address, VID), which scans nothing, writes no port and is lent no memory.
pub fn lookup(port: &PortOctets, address: &Address, vid: u32) -> Replied {
    // SAFETY: the length is that of the port's type; an address has six octets, as the header asks.
    replied(|first, second| unsafe { bunnysolder_lookup(port, PORT_OCTETS, address, vid, first, second) })
}

/// Stream counts(s), which scans nothing, writes no port and is lent no memory.
pub fn stream_counts(port: &PortOctets, stream: u8) -> Replied {
    // SAFETY: the length is that of the port's type.
    replied(|first, second| unsafe { bunnysolder_stream_counts(port, PORT_OCTETS, stream, first, second) })
}

#[cfg(test)]
mod tests {
    use super::*;
    use crate::STREAMS;

    /// A number that is no refusal of a call's is handed on as none of them.
    #[test]
    #[should_panic(expected = "the refusal 21 is none of the rule's")]
    fn a_refusal_outside_the_rule_stops() {
        let _ = replied(|_, _| 21);
    }

    /// What a call leaves in its numbers is read in their order, and only where it is granted.
    #[test]
    fn numbers_and_refusals_are_read() {
        let leaving = |refusal: u8| {
            move |first: &mut u32, second: &mut u32| {
                (*first, *second) = (1, 80);
                refusal
            }
        };
        assert_eq!(replied(leaving(0)), Ok((1, 80)));
        assert_eq!(replied(leaving(14)), Err(Refusal::Discard));
        assert_eq!(replied(leaving(25)), Err(Refusal::Draining));
        assert_eq!(replied(leaving(26)), Err(Refusal::OffsetRange));
    }

    /// A port that was never opened has no binding, and a lookup on it is no refusal.
    #[test]
    fn a_lookup_takes_a_closed_port() {
        for vid in [0, 1, u32::MAX] {
            assert_eq!(lookup(&CLOSED_PORT, &[0; ADDRESS_OCTETS], vid), Ok((255, 0)));
        }
    }

    /// The counts of a port that was never opened are there for every stream, and no other number is one.
    #[test]
    fn stream_counts_take_a_closed_port() {
        for stream in 0..=u8::MAX {
            let expected = if usize::from(stream) < STREAMS { Ok((0, 0)) } else { Err(Refusal::StreamRange) };
            assert_eq!(stream_counts(&CLOSED_PORT, stream), expected, "{stream}");
        }
    }

    /// The lengths of port, memory and address are those of the header.
    #[test]
    fn the_lengths_are_those_of_the_header() {
        let header = include_str!("../../include/bunnysolder.h");
        for (name, octets) in [("PORT", PORT_OCTETS), ("MEMORY", MEMORY_OCTETS), ("ADDRESS", ADDRESS_OCTETS)] {
            assert!(header.contains(&format!("#define BUNNYSOLDER_{name}_LENGTH {octets}\n")), "{name}");
        }
    }
}
