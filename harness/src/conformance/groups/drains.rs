//! The group `drains`: long runs in which streams are withdrawn in any epoch while their frames wait, drain each by itself, and their numbers and share
//! are granted again; and now and then an Open, which is refused.

use crate::call::Call;
use crate::comparing::random::Random;
use crate::conformance::groups::numbers::{self, ABOUT_LINKS, FEW_FRAMES};
use crate::conformance::groups::played::Played;
use crate::model::port::{CHARGES, LEAST_PERMITTED, STREAMS};

/// The events: traffic of a few streams, with withdrawals and reservations between.
pub fn events(random: &mut Random) -> Vec<Call> {
    let count = 2 + random.below(6);
    let streams = numbers::streams(random, count);
    let permitted: Vec<u32> = streams.iter().map(|_| random.pick(&FEW_FRAMES)).collect();
    let mut played = numbers::reserved(&streams, &permitted, random.pick(&[0, 84, 500]), random.between(1..=4));
    let transmits = random.pick(&[10, 25, 40]);
    for _ in 0..random.between(200..=400) {
        match random.weighted(&[40, 18, transmits, 6, 5, 12, 1]) {
            0 => arrive(random, &mut played),
            1 => played.tick(1),
            2 => played.transmit(1),
            3 => played.best_effort(random.between(CHARGES)),
            4 => withdraw(random, &mut played),
            5 => reserve(random, &mut played, &streams),
            _ => drop(played.play(Call::Open { link: random.between(ABOUT_LINKS), delay: random.between(1..=2) })),
        }
    }
    played.events()
}

/// A frame of a stream that takes frames, near what is left of it, and now and then of one that drains; a transmit where none is reserved.
fn arrive(random: &mut Random, played: &mut Played) {
    let (draining, taking): (Vec<u8>, Vec<u8>) = played.reserved_streams().into_iter().partition(|&stream| played.is_draining(stream));
    let named = if taking.is_empty() || (!draining.is_empty() && random.chance(8)) { draining } else { taking };
    if named.is_empty() {
        return played.transmit(1);
    }
    let stream = random.pick(&named);
    let charge = numbers::charge_near_left(random, played, stream);
    played.arrive(stream, charge);
}

/// A withdrawal of a stream that is reserved, and now and then of any.
fn withdraw(random: &mut Random, played: &mut Played) {
    let any = random.below(STREAMS) as u8;
    let taking: Vec<u8> = played.reserved_streams().into_iter().filter(|&stream| !played.is_draining(stream)).collect();
    played.withdraw(if taking.is_empty() || random.chance(5) { any } else { random.pick(&taking) });
}

/// A reservation of what is free, or a part, for one of the streams that has none; one octet more than is free now and then, where no stream drains.
fn reserve(random: &mut Random, played: &mut Played, streams: &[u8]) {
    let (free, reserved) = (played.free(), played.reserved_streams());
    let Some(&stream) = streams.iter().find(|stream| !reserved.contains(stream)) else { return played.transmit(1) };
    if free < LEAST_PERMITTED {
        return played.tick(1);
    }
    let part = random.between(LEAST_PERMITTED..=free);
    played.reserve(stream, random.pick(&[free, part, part, free + 1]));
    if played.reserved_streams().contains(&stream) {
        let charge = numbers::charge_near_left(random, played, stream);
        played.arrive(stream, charge);
    }
}
