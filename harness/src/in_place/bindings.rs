//! The quick Bind, the lookup, and the pairs to which streams are bound: VID and address stand together in a stream's entry.

use super::{is_draining, refuse, Record};
use crate::call::{Reply, ADDRESS_OCTETS};
use crate::layout::{entry, ADDRESS, BINDING_END, BOUND, OPEN, RESERVED, STREAM_ENTRY, VID};
use crate::model::port::{BEST_EFFORT_STREAM, MARK_YES, STREAMS, VIDS};

/// VID and address of a stream, as they stand in its entry.
pub type Binding = [u8; BINDING_END - VID];

/// Bind(s, address, VID): 1, 5, 25, 12, 9, 10, 11, then the step.
pub fn bind(record: &mut Record, stream: u8, address: &[u8; ADDRESS_OCTETS], vid: u32) -> Result<Reply, u8> {
    refuse(1, record[OPEN] != MARK_YES)?;
    refuse(5, stream as usize >= STREAMS)?;
    let at = entry(stream as usize);
    refuse(25, is_draining(record, at))?;
    refuse(12, record[at + RESERVED] != MARK_YES)?;
    refuse(9, !VIDS.contains(&vid))?;
    refuse(10, record[at + BOUND] == MARK_YES)?;
    let binding = binding(address, vid as u16);
    // The number beside the stream is asked by nobody here, and the compiler may leave it out.
    refuse(11, found(record, &binding).0.is_some())?;
    record[at + BOUND] = MARK_YES;
    record[at + VID..at + BINDING_END].copy_from_slice(&binding);
    Ok(Reply::granted(0, 0))
}

/// Lookup(address, VID): the stream, or 255 for none, and how many address octets were compared. No entry holds a VID above 65,535.
#[inline(always)]
pub fn lookup(record: &Record, address: &[u8; ADDRESS_OCTETS], vid: u32) -> Reply {
    let (stream, compared) = match u16::try_from(vid) {
        Ok(vid) => found(record, &binding(address, vid)),
        Err(_) => (None, 0),
    };
    Reply::granted(stream.map_or(BEST_EFFORT_STREAM, |stream| stream as u32), compared)
}

/// VID and address as they stand in an entry.
#[inline(always)]
fn binding(address: &[u8; ADDRESS_OCTETS], vid: u16) -> Binding {
    let mut binding = Binding::default();
    binding[..2].copy_from_slice(&vid.to_be_bytes());
    binding[2..].copy_from_slice(address);
    binding
}

/// The first stream whose bound mark says yes and whose entry has this VID and address, reserved or not; and how many address octets were compared,
/// from the last back, with the entries of this VID up to that stream: all six of equal addresses, else those up to the first that differs.
#[inline(always)]
pub fn found(record: &Record, binding: &Binding) -> (Option<usize>, u32) {
    let (vid, address) = binding.split_at(ADDRESS - VID);
    let mut compared = 0;
    for stream in 0..STREAMS {
        let held = &record[entry(stream)..][..STREAM_ENTRY];
        if held[BOUND] != MARK_YES || held[VID..ADDRESS] != *vid {
            continue;
        }
        match held[ADDRESS..].iter().zip(address).rposition(|(one, other)| one != other) {
            None => return (Some(stream), compared + ADDRESS_OCTETS as u32),
            Some(octet) => compared += (ADDRESS_OCTETS - octet) as u32,
        }
    }
    (None, compared)
}
