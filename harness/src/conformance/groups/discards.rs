//! The group `discards`: frames that are discarded in every way, the same ones with none to four ticks after each, and what joins where after them.

use crate::call::Call;
use crate::comparing::random::Random;
use crate::conformance::groups::numbers::{self, FEW_FRAMES};
use crate::conformance::groups::played::Played;
use crate::model::port::{LARGEST_CHARGE, LEAST_CHARGE};

/// How many numbers of ticks are tried after a discard: none to four.
pub const TICKS: usize = 5;
/// How many discards a capture has at least.
const ROUNDS: usize = 12;

/// The events: rounds of a discard, ticks and further frames, of one stream beside another.
pub fn events(random: &mut Random, ticks: usize) -> Vec<Call> {
    let streams = numbers::streams(random, 2);
    let permitted = [random.pick(&FEW_FRAMES[..7]), random.pick(&FEW_FRAMES)];
    let mut played = numbers::reserved(&streams, &permitted, 84, random.between(1..=2));
    for _ in 0..ROUNDS {
        discard(random, &mut played, streams[0], permitted[0]);
        played.tick(ticks);
        after(random, &mut played, streams[0], permitted[0]);
        played.arrive(streams[1], numbers::charge_within(random, permitted[1]));
        played.transmit(random.below(7));
        played.tick(random.below(4));
    }
    played.events()
}

/// Frames of a stream up to one that is discarded: one above P after any number of others, or so many that last has no room.
fn discard(random: &mut Random, played: &mut Played, stream: u8, permitted: u32) {
    for _ in 0..random.below(4) {
        played.arrive(stream, numbers::charge_within(random, permitted));
    }
    match random.below(4) {
        0 => played.arrive(stream, permitted + 1),
        1 => played.arrive(stream, LARGEST_CHARGE),
        _ => (0..4).for_each(|_| played.arrive(stream, numbers::nearest_charge(permitted - random.pick(&[0, 0, 1, 83])))),
    }
}

/// Frames of a stream after a discard, each of which may find another place: the least, all of P, what is left, any.
fn after(random: &mut Random, played: &mut Played, stream: u8, permitted: u32) {
    for _ in 0..1 + random.below(3) {
        let any = numbers::charge_within(random, permitted);
        let near = numbers::charge_near_left(random, played, stream);
        played.arrive(stream, random.pick(&[LEAST_CHARGE, permitted, near, any]));
        played.transmit(random.below(2));
    }
}
