//! Shapes of records that need not be fit, and lengths that need not be right.

use crate::comparing::fit::{any_binding, Binding, Octets};
use crate::comparing::random::Random;
use crate::layout::{self, two};
use crate::model::octets::{MEMORY_OCTETS, PORT_OCTETS, RECORD_OCTETS};
use crate::model::port::{MARK_YES, QUEUES, STREAMS};

/// The lengths of a lent port that are tried: none, one, those about a record alone, short by one, right, and longer.
const PORT_LENGTHS: [usize; 8] = [0, 1, RECORD_OCTETS - 1, RECORD_OCTETS, PORT_OCTETS - 1, PORT_OCTETS, PORT_OCTETS + 1, 3_000];
/// The lengths of a memory that are tried.
const MEMORY_LENGTHS: [usize; 6] = [0, 1, MEMORY_OCTETS - 1, MEMORY_OCTETS, MEMORY_OCTETS + 1, 20_000];

/// Makes one record of a shape.
pub type Shape = fn(&mut Random) -> Octets;

/// The shapes of records that the tests try, each with its name.
pub const SHAPES: [(&str, Shape); 8] = [
    ("fit", any_fit),
    ("near fit", near_fit),
    ("any octets", Octets::any),
    ("any octets, open", any_open),
    ("few octets that are not zero", sparse),
    ("zeros and ones", zeros_and_ones),
    ("far outside", extreme),
    ("bindings of every sort", bindings_of_every_sort),
];

/// A fit record, open or closed.
pub fn any_fit(random: &mut Random) -> Octets {
    let open = random.chance(70);
    Octets::fit(random, open)
}

/// A fit record with one to three octets changed, in record or memory.
pub fn near_fit(random: &mut Random) -> Octets {
    let mut octets = any_fit(random);
    for _ in 0..random.between(1..=3) {
        let slice = if random.chance(70) { &mut octets.record } else { &mut octets.memory };
        let at = random.below(slice.len());
        let (octet, other) = (slice[at], random.other_octet(slice[at]));
        slice[at] = random.pick(&[other, octet.wrapping_add(1), octet.wrapping_sub(1), 1]);
    }
    octets
}

/// Any octets, with the mark of an open port.
pub fn any_open(random: &mut Random) -> Octets {
    let mut octets = Octets::any(random);
    octets.record[layout::OPEN] = MARK_YES;
    octets
}

/// Zeros, but for a few octets of the record.
pub fn sparse(random: &mut Random) -> Octets {
    let mut octets = Octets::zero();
    random.fill(&mut octets.memory);
    for _ in 0..random.below(8) {
        let any = random.octet();
        let at = random.below(PORT_OCTETS);
        let in_head = random.below(layout::entry(0));
        octets.record[random.pick(&[at, in_head])] = random.pick(&[1, 1, 2, 255, any]);
    }
    octets
}

/// A record of zeros and ones, the zeros more often or less.
pub fn zeros_and_ones(random: &mut Random) -> Octets {
    let mut octets = Octets::any(random);
    let ones = random.pick(&[1, 10, 50, 90]);
    for octet in &mut octets.record {
        *octet = u8::from(random.chance(ones));
    }
    octets
}

/// An open record of which any queue and stream may be far outside what is fit, and frames may wait whose stream is that of nothing to send.
pub fn extreme(random: &mut Random) -> Octets {
    let mut octets = Octets::fit(random, true);
    for queue in 0..QUEUES {
        put_extreme(random, &mut octets.record, layout::start(queue), &[255, 256, 32_768, u16::MAX]);
        put_extreme(random, &mut octets.record, layout::count(queue), &[0, 255, 256, 257, 32_768, u16::MAX]);
        let oldest = layout::frame(queue, two(&octets.record, layout::start(queue)) as usize, 0);
        put_extreme(random, &mut octets.memory, oldest + layout::FRAME_STREAM, &[64, 254, 254, 255, 256 + 254, u16::MAX]);
    }
    for at in (0..STREAMS).map(layout::entry) {
        put_extreme(random, &mut octets.record, at + layout::LEFT, &[0, 83, 84, u16::MAX]);
        put_extreme(random, &mut octets.record, at + layout::PERMITTED, &[0, 83, 84, u16::MAX]);
        let place = octets.record[at + layout::PLACE];
        octets.record[at + layout::PLACE] = random.pick(&[0, 4, 255, place, place, place]);
        let draining = octets.record[at + layout::DRAINING];
        octets.record[at + layout::DRAINING] = if random.chance(10) { random.pick(&[0, 1, 5, 255]) } else { draining };
    }
    put_extreme(random, &mut octets.record, layout::LINK, &[0, 1_626, 2_019, 2_020, 2_103, 23_525, u16::MAX]);
    put_extreme(random, &mut octets.record, layout::WAITS, &[0, u16::MAX]);
    put_extreme(random, &mut octets.record, layout::WAITS + 2, &[0, u16::MAX]);
    let (prior, delay) = (octets.record[layout::PRIOR], octets.record[layout::DELAY]);
    octets.record[layout::DELAY] = random.pick(&[0, 17, 255, delay, delay, delay]);
    octets.record[layout::PRIOR] = random.pick(&[4, 7, 255, prior]);
    octets
}

/// An open record, fit but for its bindings: of streams that are reserved or not, few pairs that repeat, and VIDs of any value.
pub fn bindings_of_every_sort(random: &mut Random) -> Octets {
    let mut octets = Octets::fit(random, true);
    let mut pairs: Vec<Binding> = Vec::new();
    for _ in 0..random.between(1..=6) {
        let mut pair = any_binding(random, &pairs);
        put_extreme(random, &mut pair, 0, &[0, 4_095, 4_096, 4_097, u16::MAX]);
        pairs.push(pair);
    }
    let bound = random.pick(&[5, 30, 100]);
    for stream in 0..STREAMS {
        if random.chance(bound) {
            octets.put_binding(stream, &random.pick(&pairs));
        }
    }
    octets
}

/// Writes one of the numbers at two octets, or leaves them.
fn put_extreme(random: &mut Random, record: &mut [u8], at: usize, numbers: &[u16]) {
    if random.chance(30) {
        record[at..at + 2].copy_from_slice(&random.pick(numbers).to_be_bytes());
    }
}

/// The octets brought to other lengths; what is added is any.
pub fn with_lengths(octets: &Octets, random: &mut Random, record: usize, memory: usize) -> Octets {
    let mut other = octets.clone();
    resize(&mut other.record, random, record);
    resize(&mut other.memory, random, memory);
    other
}

/// Shortens a slice, or adds any octets.
fn resize(octets: &mut Vec<u8>, random: &mut Random, length: usize) {
    let kept = octets.len().min(length);
    octets.resize(length, 0);
    random.fill(&mut octets[kept..]);
}

/// Every shape with every pair of lengths of record and memory, so many times.
pub fn each_shape_and_lengths(times: usize) -> Vec<((&'static str, Shape), (usize, usize))> {
    let pairs = PORT_LENGTHS.into_iter().flat_map(|record| MEMORY_LENGTHS.map(|memory| (record, memory)));
    let once: Vec<_> = pairs.flat_map(|lengths| SHAPES.map(|shape| (shape, lengths))).collect();
    once.repeat(times)
}
