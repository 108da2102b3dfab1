//! The group `transmits`: which frame is sent while frames wait in several queues at once, and transmits with nothing to send.

use crate::call::Call;
use crate::comparing::random::Random;
use crate::conformance::groups::numbers::{self, FEW_FRAMES};
use crate::conformance::groups::played::Played;

/// The events: rounds in which frames join all queues, ticks, and transmits until nothing or before.
pub fn events(random: &mut Random) -> Vec<Call> {
    let count = 1 + random.below(4);
    let streams = numbers::streams(random, count);
    let permitted: Vec<u32> = streams.iter().map(|_| random.pick(&FEW_FRAMES)).collect();
    let mut played = numbers::reserved(&streams, &permitted, 300, random.between(1..=3));
    for _ in 0..random.between(14..=26) {
        join(random, &mut played, &streams);
        played.tick(random.pick(&[0, 1, 1, 1, 2, 3]));
        join(random, &mut played, &streams);
        played.transmit(random.pick(&[1, 3, 5, 12]));
    }
    played.events()
}

/// Up to as many frames as fill all queues of the streams, and best-effort frames among them.
fn join(random: &mut Random, played: &mut Played, streams: &[u8]) {
    for _ in 0..random.below(2 + streams.len()) {
        let stream = random.pick(streams);
        let charge = numbers::charge_within(random, played.permitted(stream));
        played.arrive(stream, charge);
        if random.chance(25) {
            played.best_effort(random.between(84..=500));
        }
    }
}
