//! The group `streams`: several streams at once, up to all 64, with the share full, on links that keep up and on links that do not.

use crate::call::Call;
use crate::comparing::random::Random;
use crate::conformance::groups::numbers;
use crate::conformance::groups::played::Played;
use crate::model::port::{share, LEAST_PERMITTED, LINKS};

/// How many streams a capture can have.
const COUNTS: [usize; 7] = [2, 3, 5, 8, 16, 32, 64];

/// The events: the whole share reserved, then about one frame of each stream between two ticks.
pub fn events(random: &mut Random) -> Vec<Call> {
    let count = random.pick(&COUNTS);
    let streams = numbers::streams(random, count);
    let most = (share(*LINKS.end()) / count as u32).min(2_500);
    let permitted: Vec<u32> = streams.iter().map(|_| random.between(LEAST_PERMITTED..=most)).collect();
    let mut played = numbers::reserved(&streams, &permitted, 0, random.between(1..=3));
    let weights = [40, random.pick(&[15, 40, 60]), (80 / count).max(2), 3];
    for _ in 0..random.between(200..=450) {
        match random.weighted(&weights) {
            0 => arrive(random, &mut played, &streams),
            1 => played.transmit(1),
            2 => played.tick(1),
            _ => played.best_effort(random.between(84..=500)),
        }
    }
    played.events()
}

/// A frame of one of the streams, near what is left of it or any that its P takes.
fn arrive(random: &mut Random, played: &mut Played, streams: &[u8]) {
    let stream = random.pick(streams);
    let charge = match random.chance(50) {
        true => numbers::charge_near_left(random, played, stream),
        false => numbers::charge_within(random, played.permitted(stream)),
    };
    played.arrive(stream, charge);
}
