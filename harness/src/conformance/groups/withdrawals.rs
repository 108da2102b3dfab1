//! The group `withdrawals`: a stream that is withdrawn after traffic, then the same questions after none to five ticks: its number, its share, the limit
//! of best effort; and its number granted again as soon as it can be, with a frame at once.

use crate::call::Call;
use crate::comparing::random::Random;
use crate::conformance::groups::numbers::{self, FEW_FRAMES};
use crate::conformance::groups::played::Played;
use crate::model::port::{CHARGES, DRAINING_TICKS, LEAST_CHARGE, LEAST_PERMITTED};

/// How many numbers of ticks are tried before the questions: none to five.
pub const TICKS: usize = 6;
/// How many withdrawals a capture has.
const ROUNDS: usize = 5;

/// The events: rounds of traffic, a withdrawal, ticks and questions, of one stream beside another.
pub fn events(random: &mut Random, ticks: usize) -> Vec<Call> {
    let streams = numbers::streams(random, 3);
    let permitted = [random.pick(&FEW_FRAMES), random.pick(&FEW_FRAMES)];
    let mut played = numbers::reserved(&streams[..2], &permitted, random.pick(&[0, 84, 100, 400]), random.between(1..=2));
    for _ in 0..ROUNDS {
        traffic(random, &mut played, &streams[..2]);
        played.withdraw(streams[0]);
        for _ in 0..ticks {
            epoch(random, &mut played, streams[1]);
        }
        asked(random, &mut played, streams[0], streams[2]);
        for _ in ticks..usize::from(DRAINING_TICKS) {
            epoch(random, &mut played, streams[1]);
        }
        granted_again(random, &mut played, streams[0]);
    }
    played.events()
}

/// Frames of both streams, near what is left of each, and some transmits.
fn traffic(random: &mut Random, played: &mut Played, streams: &[u8]) {
    for _ in 0..random.between(1..=8) {
        let stream = random.pick(streams);
        let charge = numbers::charge_near_left(random, played, stream);
        played.arrive(stream, charge);
        played.transmit(usize::from(random.chance(30)));
    }
}

/// Some transmits, a frame of the other stream, and a tick.
fn epoch(random: &mut Random, played: &mut Played, other: u8) {
    played.transmit(random.below(4));
    let charge = numbers::charge_near_left(random, played, other);
    played.arrive(other, charge);
    played.transmit(random.below(2));
    played.tick(1);
}

/// The questions: what a frame, a further withdrawal and a reservation of the stream reply, whether a third stream may have one octet more than is
/// free, and what best effort takes.
fn asked(random: &mut Random, played: &mut Played, stream: u8, third: u8) {
    played.arrive(stream, random.pick(&[LEAST_CHARGE - 1, LEAST_CHARGE, 150, *CHARGES.end(), *CHARGES.end() + 1]));
    if played.is_draining(stream) {
        played.withdraw(stream);
        played.reserve(stream, random.pick(&[0, LEAST_PERMITTED - 1, LEAST_PERMITTED, played.free() + 1, u32::MAX]));
    }
    played.reserve(third, played.free() + random.between(1..=84));
    let room = played.room();
    played.best_effort(numbers::nearest_charge(room + 1));
    played.best_effort(numbers::nearest_charge(room));
}

/// The number is granted again, with all that is free or a part of it, and has a frame at once.
fn granted_again(random: &mut Random, played: &mut Played, stream: u8) {
    let free = played.free();
    played.reserve(stream, random.pick(&[free, free, free / 2, LEAST_PERMITTED, free + 1]));
    if !played.reserved_streams().contains(&stream) {
        played.reserve(stream, free);
    }
    let charge = numbers::charge_near_left(random, played, stream);
    played.arrive(stream, charge);
}
