//! The group `reservations`: reservations after traffic, at any time of an epoch, up to the share and one octet past it, and frames of the new
//! streams at once.

use crate::call::Call;
use crate::comparing::random::Random;
use crate::conformance::groups::numbers;
use crate::conformance::groups::played::Played;
use crate::model::port::{LEAST_PERMITTED, STREAMS};

/// The events: traffic of the streams that are reserved so far, and now and then a further reservation.
pub fn events(random: &mut Random) -> Vec<Call> {
    let mut played = Played::opened(numbers::link(0, random.between(458..=7_458)), random.between(1..=4));
    reserve(random, &mut played);
    for _ in 0..random.between(120..=220) {
        match random.weighted(&[9, 40, 15, 28, 8]) {
            0 => reserve(random, &mut played),
            1 => arrive(random, &mut played),
            2 => played.tick(1),
            3 => played.transmit(1),
            _ => played.best_effort(random.between(84..=900)),
        }
    }
    played.events()
}

/// A reservation, most often of a stream that has none and of a part of the share still free; then, most often, a frame of it.
fn reserve(random: &mut Random, played: &mut Played) {
    let reserved = played.reserved_streams();
    let any = random.below(STREAMS) as u8;
    let stream = match random.weighted(&[80, 10, 10]) {
        0 => any,
        1 => random.pick(&[64, 65, 128, 255]),
        _ => reserved.first().copied().unwrap_or(any),
    };
    let free = played.free();
    let part = (free / 4).max(LEAST_PERMITTED);
    played.reserve(stream, random.pick(&[LEAST_PERMITTED, part, part, free / 2, free, free + 1, LEAST_PERMITTED - 1]));
    if played.reserved_streams().contains(&stream) && random.chance(70) {
        let charge = numbers::charge_near_left(random, played, stream);
        played.arrive(stream, charge);
    }
}

/// A frame of a stream that is reserved, near what is left of it; a transmit where none is.
fn arrive(random: &mut Random, played: &mut Played) {
    let reserved = played.reserved_streams();
    if reserved.is_empty() {
        return played.transmit(1);
    }
    let stream = random.pick(&reserved);
    let charge = numbers::charge_near_left(random, played, stream);
    played.arrive(stream, charge);
}
