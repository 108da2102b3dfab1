//! What the generators draw: streams, links with room for their reservations, and reservations and charges of every sort.

use std::ops::RangeInclusive;

use crate::comparing::random::Random;
use crate::conformance::groups::played::Played;
use crate::model::port::{CHARGES, LARGEST_CHARGE, LEAST_CHARGE, LINKS, STREAMS};

/// P of every sort: the least, a few frames of the least charge and one octet beside them, around the largest charge, and several such frames.
pub const PERMITTED: [u32; 14] = [
    84,
    85,
    168,
    169,
    200,
    252,
    400,
    1_000,
    LARGEST_CHARGE - 1,
    LARGEST_CHARGE,
    LARGEST_CHARGE + 1,
    LARGEST_CHARGE + 458,
    2 * LARGEST_CHARGE,
    5_000,
];

/// P of a few frames, of which none is above the largest charge.
pub const FEW_FRAMES: [u32; 8] = [168, 200, 252, 300, 420, 600, 1_000, LARGEST_CHARGE];

/// L from somewhat below its range to somewhat above it.
pub const ABOUT_LINKS: RangeInclusive<u32> = *LINKS.start() - 26..=*LINKS.end() + 54;

/// So many streams, any, in any order.
pub fn streams(random: &mut Random, count: usize) -> Vec<u8> {
    random.shuffled(STREAMS)[..count].iter().map(|&stream| stream as u8).collect()
}

/// L with a share for so many reserved octets and so many more.
pub fn link(reserved: u32, free: u32) -> u32 {
    (LARGEST_CHARGE + reserved + free).clamp(*LINKS.start(), *LINKS.end())
}

/// A port with a P for each of some streams, opened with so much of the share free besides.
pub fn reserved(streams: &[u8], permitted: &[u32], free: u32, delay: u32) -> Played {
    let mut played = Played::opened(link(permitted.iter().sum(), free), delay);
    for (&stream, &permitted) in streams.iter().zip(permitted) {
        played.reserve(stream, permitted);
    }
    played
}

/// A charge that this P takes.
pub fn charge_within(random: &mut Random, permitted: u32) -> u32 {
    random.between(LEAST_CHARGE..=permitted.clamp(LEAST_CHARGE, LARGEST_CHARGE))
}

/// A charge that presses what is left of a stream: just that, one octet more, so much that a frame of the least charge still fits or just does not,
/// P, one octet more, half of it, or the least; where that is no charge, any that P takes.
pub fn charge_near_left(random: &mut Random, played: &Played, stream: u8) -> u32 {
    let (left, permitted) = (played.left(stream), played.permitted(stream));
    let still_fits = left.saturating_sub(LEAST_CHARGE);
    let half = permitted / 2;
    let near = [left, left, left, left + 1, still_fits, still_fits + 1, permitted, permitted + 1, half, half, LEAST_CHARGE, LEAST_CHARGE];
    let chosen = random.pick(&near);
    match CHARGES.contains(&chosen) {
        true => chosen,
        false => charge_within(random, permitted),
    }
}

/// A number as near to the wanted one as a charge can be.
pub fn nearest_charge(wanted: u32) -> u32 {
    wanted.clamp(LEAST_CHARGE, LARGEST_CHARGE)
}
