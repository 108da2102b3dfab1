//! What can be wrong with a capture: the fields of its octets, and for each check of the file every damage that it must refuse.

use std::fmt;

use crate::capture::file::LAST_INDEX;
use crate::comparing::calls::OVER_AN_OCTET;
use crate::model::capture::{
    ARRIVE, BEST_EFFORT, FIRST_INDICES_AT, KIND_AT, LETTERS, MOST_OCTETS, NEXT_INDEX_AT, NUMBER_A_AT, NUMBER_B_AT, OPEN, RECORD_OCTETS,
    RESERVE, STREAM_AT, WITHDRAW, ZEROS_AT,
};
use crate::model::octets::TWO;
use crate::model::refusal::{CAPTURE_HEADER, CAPTURE_INDEX, CAPTURE_LENGTH, CAPTURE_RECORD};

/// What an octet of a capture is part of.
#[derive(Clone, Copy, Debug, PartialEq, Eq, PartialOrd, Ord)]
pub enum Field {
    Letters,
    FirstIndex,
    HeaderZeros,
    Kind,
    Stream,
    NextIndex,
    NumberA,
    NumberB,
    Zeros,
}

/// Every field.
pub const FIELDS: [Field; 9] = [
    Field::Letters,
    Field::FirstIndex,
    Field::HeaderZeros,
    Field::Kind,
    Field::Stream,
    Field::NextIndex,
    Field::NumberA,
    Field::NumberB,
    Field::Zeros,
];

impl Field {
    /// The field of the octet at a place of the file.
    pub fn at(place: usize) -> Field {
        match (place / RECORD_OCTETS, place % RECORD_OCTETS) {
            (0, within) if within < FIRST_INDICES_AT => Field::Letters,
            (0, within) if within < ZEROS_AT => Field::FirstIndex,
            (0, _) => Field::HeaderZeros,
            (_, KIND_AT) => Field::Kind,
            (_, STREAM_AT) => Field::Stream,
            (_, within) if within < NUMBER_A_AT => Field::NextIndex,
            (_, within) if within < NUMBER_B_AT => Field::NumberA,
            (_, within) if within < ZEROS_AT => Field::NumberB,
            _ => Field::Zeros,
        }
    }
}

impl fmt::Display for Field {
    fn fmt(&self, f: &mut fmt::Formatter<'_>) -> fmt::Result {
        f.write_str(match self {
            Field::Letters => "letters",
            Field::FirstIndex => "first index",
            Field::HeaderZeros => "header's zero octets",
            Field::Kind => "kind",
            Field::Stream => "stream octet",
            Field::NextIndex => "next index",
            Field::NumberA => "number A",
            Field::NumberB => "number B",
            Field::Zeros => "zero octets",
        })
    }
}

/// What a check looks at.
#[derive(Clone, Copy, Debug, PartialEq, Eq)]
pub enum FileCheck {
    /// 21.
    Length,
    /// 22.
    Header,
    /// 23 of a port's first index.
    First(usize),
    /// 24 of a record.
    Record(usize),
    /// 23 of a record's next index.
    Next(usize),
}

/// One way to make a capture wrong.
#[derive(Clone)]
pub enum Damage {
    /// Octets are written over those from a place on.
    Written { at: usize, octets: Vec<u8> },
    /// The file is cut to a length.
    Cut(usize),
    /// So many zero octets are added.
    Added(usize),
}

impl Damage {
    /// Makes a capture wrong.
    pub fn apply(&self, capture: &mut Vec<u8>) {
        match self {
            Damage::Written { at, octets } => capture[*at..at + octets.len()].copy_from_slice(octets),
            Damage::Cut(length) => capture.truncate(*length),
            Damage::Added(octets) => capture.resize(capture.len() + octets, 0),
        }
    }
}

impl FileCheck {
    /// What `replay` prints where this check is the first that fails.
    pub fn refused(self) -> String {
        let (refusal, index) = match self {
            FileCheck::Length => (CAPTURE_LENGTH, 0),
            FileCheck::Header => (CAPTURE_HEADER, 0),
            FileCheck::First(_) => (CAPTURE_INDEX, 0),
            FileCheck::Next(index) => (CAPTURE_INDEX, index),
            FileCheck::Record(index) => (CAPTURE_RECORD, index),
        };
        format!("refused {refusal} {index}\n")
    }

    /// Every damage that is tried for this check in a good capture of fewer than 256 records; some indices would be good ones if one octet of them
    /// were read.
    pub fn damages(self, capture: &[u8]) -> Vec<Damage> {
        let count = (capture.len() / RECORD_OCTETS) as u32;
        match self {
            FileCheck::Length => length_damages(capture),
            FileCheck::Header => header_damages(capture),
            FileCheck::First(port) => {
                index_damages(FIRST_INDICES_AT + TWO * port, &[count, count + 1, OVER_AN_OCTET, OVER_AN_OCTET + 1, LAST_INDEX])
            }
            FileCheck::Next(index) => {
                let own = index as u32;
                let above = [count, count + 1, OVER_AN_OCTET, OVER_AN_OCTET + own + 1, LAST_INDEX];
                index_damages(index * RECORD_OCTETS + NEXT_INDEX_AT, &(1..=own).chain(above).collect::<Vec<_>>())
            }
            FileCheck::Record(index) => record_damages(capture, index * RECORD_OCTETS),
        }
    }
}

/// A file that is cut or extended to a length that no capture has.
fn length_damages(capture: &[u8]) -> Vec<Damage> {
    let cut = [0, 1, RECORD_OCTETS - 1, capture.len() - 1].map(Damage::Cut);
    cut.into_iter().chain([1, MOST_OCTETS].map(Damage::Added)).collect()
}

/// Another octet in each of the header's letters and zero octets.
fn header_damages(capture: &[u8]) -> Vec<Damage> {
    let places = (0..LETTERS.len()).chain(ZEROS_AT..RECORD_OCTETS);
    places.flat_map(|at| [1, 0x20, 0x80].map(|change| Damage::Written { at, octets: vec![capture[at] ^ change] })).collect()
}

/// Each of the indices, written at a place.
fn index_damages(at: usize, indices: &[u32]) -> Vec<Damage> {
    indices.iter().map(|&index| Damage::Written { at, octets: (index as u16).to_be_bytes().to_vec() }).collect()
}

/// "24 kind, stream octet, unused number or zero octets" of the record at a place of the file.
fn record_damages(capture: &[u8], at: usize) -> Vec<Damage> {
    let octet = |within: usize, octet: u8| Damage::Written { at: at + within, octets: vec![octet] };
    let mut damages = [0, 8, 128, 255].map(|kind| octet(KIND_AT, kind)).to_vec();
    damages.extend((ZEROS_AT..RECORD_OCTETS).flat_map(|within| [octet(within, 1), octet(within, 255)]));
    let (streams, unused): (&[u8], _) = match capture[at + KIND_AT] {
        OPEN => (&[1, 255], 0..0),
        RESERVE => (&[], NUMBER_B_AT..ZEROS_AT),
        ARRIVE => (&[], 0..0),
        BEST_EFFORT => (&[0, 1, 253, 254], 0..0),
        WITHDRAW => (&[], NUMBER_A_AT..ZEROS_AT),
        _ => (&[1, 128, 255], NUMBER_A_AT..ZEROS_AT),
    };
    damages.extend(streams.iter().map(|&stream| octet(STREAM_AT, stream)));
    damages.extend(unused.flat_map(|within| [octet(within, 1), octet(within, 128)]));
    damages
}
