//! The group `fits`: frames that are just what is left, one octet more or less, all of P or one octet above it, at current, next and last.

use crate::call::Call;
use crate::comparing::random::Random;
use crate::conformance::groups::numbers::{self, PERMITTED};

/// The events: a few streams, each arrival with a charge near what is left.
pub fn events(random: &mut Random) -> Vec<Call> {
    let count = 1 + random.below(3);
    let streams = numbers::streams(random, count);
    let permitted: Vec<u32> = streams.iter().map(|_| random.pick(&PERMITTED)).collect();
    let mut played = numbers::reserved(&streams, &permitted, random.pick(&[0, 1, 500]), random.between(1..=4));
    for _ in 0..random.between(150..=300) {
        let stream = random.pick(&streams);
        match random.weighted(&[50, 22, 25, 3]) {
            0 => {
                let charge = numbers::charge_near_left(random, &played, stream);
                played.arrive(stream, charge);
            }
            1 => played.tick(1),
            2 => played.transmit(1),
            _ => played.best_effort(random.between(84..=400)),
        }
    }
    played.events()
}
