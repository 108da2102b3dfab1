//! Frames and bindings: octets with a chosen header, what a record of any content says of a frame, and Binds and Frames near what is bound. The
//! numbers of documents 01 and 02 stand here as numbers, not as the model's.

use std::sync::Arc;

use crate::call::{Call, ADDRESS_OCTETS};
use crate::comparing::calls::{any_tag, edge_stream, Profile, OVER_TWO_OCTETS};
use crate::comparing::fit::{any_binding, binding, bindings, is_bound, Binding};
use crate::comparing::random::Random;
use crate::layout::{entry, is_reserved, BINDING_END, VID};
use crate::model::port::{CHARGES, STREAMS};

/// The octets of a header, up to the last that Frame reads.
const HEADER_OCTETS: usize = 16;
/// Octets 12 and 13 of a tagged frame: "81 00 (hexadecimal)".
pub const TAGGED: [u8; 2] = [0x81, 0x00];
/// How many values there are of the bits above the VID in octets 14 and 15.
pub const PRIORITIES: u16 = 16;
/// What a frame costs beside its length: "plus 4 for the check sequence, plus 20 for preamble and gap".
pub const BESIDE_LENGTH: u32 = 24;

/// VIDs at the ends of their range and outside it, also where fewer bits would hide that.
const EDGE_VIDS: [u32; 9] = [0, 1, 4_094, 4_095, 4_096, 4_097, OVER_TWO_OCTETS, OVER_TWO_OCTETS + 1, u32::MAX];
/// Lengths of frames at the ends of their range and outside it: without a header, with a part of one, and where fewer bits would hide it; and on
/// both sides of 1,518.
const EDGE_LENGTHS: [usize; 11] = [0, 1, 15, 59, 60, 1_518, 1_519, 1_996, 1_997, 2_000, OVER_TWO_OCTETS as usize + 60];

/// What Frame reads of a frame.
#[derive(Clone, Copy, Debug)]
pub struct Header {
    /// "octets 0 to 5 are the destination".
    pub destination: [u8; ADDRESS_OCTETS],
    /// Octets 12 and 13.
    pub protocol: [u8; 2],
    /// Octets 14 and 15.
    pub control: u16,
}

impl Header {
    /// The header of a tagged frame.
    pub fn tagged(destination: [u8; ADDRESS_OCTETS], vid: u16) -> Header {
        Header { destination, protocol: TAGGED, control: vid }
    }

    /// Octets of a length with this header, or as much of it as they have; all else is any.
    pub fn octets(&self, random: &mut Random, length: usize) -> Arc<[u8]> {
        let mut octets = vec![0; length.max(HEADER_OCTETS)];
        random.fill(&mut octets);
        octets[..6].copy_from_slice(&self.destination);
        octets[12..14].copy_from_slice(&self.protocol);
        octets[14..16].copy_from_slice(&self.control.to_be_bytes());
        octets.truncate(length);
        octets.into()
    }

    /// A Frame of a charge with this header.
    pub fn frame(&self, random: &mut Random, charge: u32, tag: u32) -> Call {
        Call::Frame { octets: self.octets(random, length(charge)), tag }
    }
}

/// The length of a frame of a charge.
pub fn length(charge: u32) -> usize {
    (charge - BESIDE_LENGTH) as usize
}

/// The first stream that is bound, by a record of any content, to the pair of a frame of any length; reserved or not.
pub fn stream_of(record: &[u8], octets: &[u8]) -> Option<usize> {
    let header: &[u8; HEADER_OCTETS] = octets.first_chunk()?;
    if header[12..14] != TAGGED {
        return None;
    }
    let vid = [header[14] % 16, header[15]];
    let named = [&vid[..], &header[..6]].concat();
    (0..STREAMS).find(|&stream| is_bound(record, stream) && record[entry(stream) + VID..entry(stream) + BINDING_END] == named[..])
}

/// Stream and charge of the arrival that a call is on a port with this record, if it is one.
pub fn arrival_of(record: &[u8], call: &Call) -> Option<(usize, u32)> {
    match call {
        Call::Arrive { stream, charge, .. } => Some((usize::from(*stream), *charge)),
        Call::Frame { octets, .. } => stream_of(record, octets).map(|stream| (stream, octets.len() as u32 + BESIDE_LENGTH)),
        _ => None,
    }
}

/// An arrival on a stream: an Arrive, or, so many times in a hundred where the stream is bound and the charge in its range, the Frame that becomes
/// it.
pub fn arrival(random: &mut Random, record: &[u8], frames: usize, stream: u8, charge: u32, tag: u32) -> Call {
    let bound = usize::from(stream) < STREAMS && is_bound(record, usize::from(stream));
    if !bound || !CHARGES.contains(&charge) || !random.chance(frames) {
        return Call::Arrive { stream, charge, tag };
    }
    header_of(random, &binding(record, usize::from(stream))).frame(random, charge, tag)
}

/// The header of a frame for a binding as it stands in a stream's entry, with any bits above the VID.
pub fn header_of(random: &mut Random, binding: &Binding) -> Header {
    let destination = binding[2..].try_into().expect("a binding has six octets of address");
    let priority = random.below(usize::from(PRIORITIES)) as u16;
    Header::tagged(destination, u16::from_be_bytes([binding[0], binding[1]]) % 4_096 + priority * 4_096)
}

/// A header: a bound pair's most often, else one near to those, or untagged with such a destination.
pub fn any_header(random: &mut Random, record: &[u8]) -> Header {
    let bindings = bindings(record);
    let binding = match bindings.is_empty() || random.chance(30) {
        true => any_binding(random, &bindings),
        false => random.pick(&bindings),
    };
    let tagged = header_of(random, &binding);
    let protocol = [random.octet(), random.octet()];
    let protocol = random.pick(&[TAGGED, TAGGED, TAGGED, TAGGED, TAGGED, TAGGED, protocol, [0x08, 0x00], [0x88, 0xa8]]);
    Header { protocol, ..tagged }
}

/// A header without a tag.
pub fn any_untagged(random: &mut Random) -> Header {
    let mut destination = [0; ADDRESS_OCTETS];
    random.fill(&mut destination);
    Header { destination, protocol: [0x08, 0x00], control: random.number() as u16 }
}

impl Profile {
    /// A Bind, most often of a stream that is reserved and not bound, to a pair that is not; one at an edge has its stream or VID there, or
    /// repeats a pair.
    pub fn bind(&self, random: &mut Random, record: &[u8], edge: bool) -> Call {
        let stream = if edge && random.chance(30) { edge_stream(random, record) } else { self.stream_to_bind(random, record) };
        let bindings = bindings(record);
        let repeated = !bindings.is_empty() && random.chance(if edge { 40 } else { 5 });
        let binding = if repeated { random.pick(&bindings) } else { any_binding(random, &bindings) };
        let vid = u32::from(binding[0]) * 256 + u32::from(binding[1]);
        let vid = if edge && random.chance(50) { random.pick(&EDGE_VIDS) } else { vid };
        Call::Bind { stream, address: binding[2..].try_into().expect("a binding has six octets of address"), vid }
    }

    /// A stream of this profile, most often one that is reserved and not bound.
    fn stream_to_bind(&self, random: &mut Random, record: &[u8]) -> u8 {
        let any = random.below(self.streams);
        let unbound = |stream: &usize| is_reserved(record, *stream) && !is_bound(record, *stream);
        if random.chance(80) {
            return (any..self.streams).chain(0..any).find(unbound).unwrap_or(any) as u8;
        }
        any as u8
    }

    /// A Frame, its charge about what is left to the stream that it is bound to, or to best effort; one at an edge has its length there.
    pub fn frame(&self, random: &mut Random, record: &[u8], edge: bool) -> Call {
        let header = any_header(random, record);
        let tag = any_tag(random);
        if edge && random.chance(70) {
            let length = random.pick(&EDGE_LENGTHS);
            return Call::Frame { octets: header.octets(random, length), tag };
        }
        let charge = match stream_of(record, &header.octets(random, HEADER_OCTETS)) {
            Some(stream) => self.any_charge(random, record, stream as u8),
            None => self.any_best_effort(random, record),
        };
        header.frame(random, charge, tag)
    }
}
