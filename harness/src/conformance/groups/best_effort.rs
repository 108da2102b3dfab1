//! The group `best_effort`: frames that make W just K × (L − R), one octet more or less, with each K, between transmits, ticks and reservations that
//! lower the limit.

use crate::call::Call;
use crate::comparing::random::Random;
use crate::conformance::groups::numbers;
use crate::conformance::groups::played::Played;
use crate::model::port::{CHARGES, DELAYS, LARGEST_CHARGE, LEAST_CHARGE, LEAST_PERMITTED};

/// How many values K has: each is tried with the same random numbers.
pub const DELAY_COUNT: usize = (*DELAYS.end() - *DELAYS.start() + 1) as usize;

/// The events with the K of a number from 0 on.
pub fn events(random: &mut Random, delay: usize) -> Vec<Call> {
    let streams = numbers::streams(random, 4);
    let permitted = [random.between(LEAST_PERMITTED..=1_000)];
    let mut played = numbers::reserved(&streams[..1], &permitted, random.pick(&[0, 200, 1_500, 9_000]), *DELAYS.start() + delay as u32);
    let (offers, transmits) = random.pick(&[(60, 25), (45, 40)]);
    for _ in 0..random.between(120..=200) {
        match random.weighted(&[offers, transmits, 6, 6, 2]) {
            0 => offer(random, &mut played),
            1 => played.transmit(1),
            2 => played.tick(1),
            3 => played.arrive(streams[0], numbers::charge_within(random, permitted[0])),
            _ => reserve(random, &mut played, &streams),
        }
    }
    played.events()
}

/// A best-effort frame near what the limit still takes; far from it most often a large one.
fn offer(random: &mut Random, played: &mut Played) {
    let room = played.room();
    let near = [room, room, room, room + 1, room + 1, room.saturating_sub(1), room.saturating_sub(LEAST_CHARGE), LEAST_CHARGE];
    let chosen = random.pick(&near);
    let any = random.between(CHARGES);
    let far = random.pick(&[LARGEST_CHARGE, LARGEST_CHARGE, any]);
    played.best_effort(if CHARGES.contains(&chosen) { chosen } else { far });
}

/// A reservation of one of the streams, which lowers the limit.
fn reserve(random: &mut Random, played: &mut Played, streams: &[u8]) {
    let free = played.free();
    played.reserve(random.pick(streams), random.pick(&[LEAST_PERMITTED, free / 2, free]));
}
