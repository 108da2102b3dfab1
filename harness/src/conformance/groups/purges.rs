//! The group `purges`: hardly any transmits, so that ticks purge what waits in prior.

use crate::call::Call;
use crate::comparing::random::Random;
use crate::conformance::groups::numbers::{self, PERMITTED};

/// The events: frames of a few streams, ticks, and now and then a few transmits.
pub fn events(random: &mut Random) -> Vec<Call> {
    let count = 1 + random.below(5);
    let streams = numbers::streams(random, count);
    let permitted: Vec<u32> = streams.iter().map(|_| random.pick(&PERMITTED[..12])).collect();
    let mut played = numbers::reserved(&streams, &permitted, 0, random.between(1..=16));
    let transmits = random.pick(&[2, 6, 12]);
    for _ in 0..random.between(120..=260) {
        match random.weighted(&[60, 28, transmits, 4]) {
            0 => {
                let stream = random.pick(&streams);
                let charge = numbers::charge_near_left(random, &played, stream);
                played.arrive(stream, charge);
            }
            1 => played.tick(1),
            2 => played.transmit(1 + random.below(4)),
            _ => played.best_effort(random.between(84..=300)),
        }
    }
    played.events()
}
