//! The group `ranges`: every number of a call at both ends of its range, one outside either end, and where fewer bits would hide that it is outside.

use crate::call::Call;
use crate::comparing::random::Random;
use crate::conformance::groups::played::Played;
use crate::model::port::{LARGEST_CHARGE, LEAST_PERMITTED, LINKS};

/// L outside its range.
const WRONG_LINKS: [u32; 6] = [0, *LINKS.start() - 1, *LINKS.end() + 1, 65_536 + *LINKS.start(), 0x8000_0000 + *LINKS.start(), u32::MAX];
/// L at an end of its range, and any.
const RIGHT_LINKS: [u32; 6] = [*LINKS.start(), *LINKS.start() + 1, 2_620, 10_000, *LINKS.end() - 1, *LINKS.end()];
/// K outside its range.
const WRONG_DELAYS: [u32; 5] = [0, 17, 256 + 1, 65_536 + 1, u32::MAX];
/// K at an end of its range, and any.
const DELAYS: [u32; 5] = [1, 2, 8, 15, 16];
/// Streams that can be reserved.
const STREAMS: [u8; 6] = [0, 1, 31, 32, 62, 63];
/// Streams that no port has.
const WRONG_STREAMS: [u8; 6] = [64, 65, 127, 128, 254, 255];
/// Charges outside their range, some of which a frame's length without check sequence, preamble and gap would be.
const WRONG_CHARGES: [u32; 9] = [0, 60, 64, 83, LARGEST_CHARGE + 1, LARGEST_CHARGE + 20, 65_536 + 84, 0x8000_0000 + 84, u32::MAX];
/// Charges at an end of their range, and such as are above what a frame's length can be.
const RIGHT_CHARGES: [u32; 9] =
    [84, 85, 88, 108, LARGEST_CHARGE - 24, LARGEST_CHARGE - 20, LARGEST_CHARGE - 4, LARGEST_CHARGE - 1, LARGEST_CHARGE];
/// Tags of every width.
const TAGS: [u32; 9] = [0, 1, 255, 256, 65_535, 65_536, 0x7FFF_FFFF, 0x8000_0000, u32::MAX];

/// The events: refused openings, one that is granted, then calls at the ends of their ranges.
pub fn events(random: &mut Random) -> Vec<Call> {
    let mut played = Played::closed();
    for _ in 0..random.below(5) {
        let (link, delay) = (random.pick(&RIGHT_LINKS), random.pick(&DELAYS));
        let (wrong_link, wrong_delay) = (random.pick(&WRONG_LINKS), random.pick(&WRONG_DELAYS));
        let (link, delay) = random.pick(&[(wrong_link, delay), (link, wrong_delay), (wrong_link, wrong_delay)]);
        played.play(Call::Open { link, delay });
    }
    played.play(Call::Open { link: random.pick(&RIGHT_LINKS), delay: random.pick(&DELAYS) });
    calls(random, &mut played);
    played.events()
}

/// Calls on an open port.
fn calls(random: &mut Random, played: &mut Played) {
    for _ in 0..random.between(80..=160) {
        let reserved = played.reserved_streams();
        match random.weighted(&[20, 40, 12, 25, 15]) {
            0 => reserve(random, played),
            1 if !reserved.is_empty() => arrive(random, played, &reserved),
            2 => played.tick(1),
            3 => played.transmit(1),
            _ => drop(played.play(Call::BestEffort { charge: charge(random), tag: random.pick(&TAGS) })),
        }
    }
}

/// A reservation: P at the ends of its range, and such that the sum of 16 or 32 bits would start over.
fn reserve(random: &mut Random, played: &mut Played) {
    let (free, reserved) = (played.free(), played.reserved());
    let permitted = [LEAST_PERMITTED, LEAST_PERMITTED + 1, free, free / 2, free / 3];
    let wrong = [0, LEAST_PERMITTED - 1, free + 1, 65_536 + LEAST_PERMITTED, 65_536 - reserved, 0u32.wrapping_sub(reserved), u32::MAX];
    let permitted = if random.chance(70) { random.pick(&permitted) } else { random.pick(&wrong) };
    played.reserve(if random.chance(85) { random.pick(&STREAMS) } else { random.pick(&WRONG_STREAMS) }, permitted);
}

/// An arrival, most often of a stream that is reserved.
fn arrive(random: &mut Random, played: &mut Played, reserved: &[u8]) {
    let stream = match random.weighted(&[86, 8, 6]) {
        0 => random.pick(reserved),
        1 => random.pick(&STREAMS),
        _ => random.pick(&WRONG_STREAMS),
    };
    played.play(Call::Arrive { stream, charge: charge(random), tag: random.pick(&TAGS) });
}

/// A charge, most often one in its range.
fn charge(random: &mut Random) -> u32 {
    if random.chance(80) {
        random.pick(&RIGHT_CHARGES)
    } else {
        random.pick(&WRONG_CHARGES)
    }
}
