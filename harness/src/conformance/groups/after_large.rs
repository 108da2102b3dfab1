//! The group `after_large`: small frames after a large one that did not fit. They join the large one's queue or a later one, and never the earlier
//! queue in which they would still have fitted.

use crate::call::Call;
use crate::comparing::random::Random;
use crate::conformance::groups::numbers;
use crate::conformance::groups::played::Played;
use crate::model::port::{LARGEST_CHARGE, LEAST_CHARGE};

/// The events: rounds of two streams, with transmits and ticks between.
pub fn events(random: &mut Random) -> Vec<Call> {
    let streams = numbers::streams(random, 2);
    let permitted = [random.between(252..=LARGEST_CHARGE), random.between(252..=3_000)];
    let mut played = numbers::reserved(&streams, &permitted, 0, random.between(1..=2));
    for _ in 0..random.between(14..=24) {
        let stream = random.pick(&streams);
        round(random, &mut played, stream);
        played.transmit(random.below(7));
        played.tick(random.pick(&[0, 1, 1, 1, 2]));
    }
    played.events()
}

/// A frame that leaves room for a small one, a large one that does not fit, now and then a tick, and small ones that would have fitted.
fn round(random: &mut Random, played: &mut Played, stream: u8) {
    let left = played.left(stream);
    if left >= 2 * LEAST_CHARGE {
        played.arrive(stream, numbers::nearest_charge(left - random.between(LEAST_CHARGE..=left - LEAST_CHARGE)));
    }
    let (left, permitted) = (played.left(stream), played.permitted(stream));
    played.arrive(stream, numbers::nearest_charge(random.between(left.min(permitted - 1) + 1..=permitted)));
    played.tick(random.pick(&[0, 0, 1]));
    for _ in 0..1 + random.below(3) {
        played.arrive(stream, random.between(LEAST_CHARGE..=numbers::nearest_charge(left)));
    }
}
