//! The group `envelope_frames`: frames of 1,517 to 1,997 octets, which cost 1,541 to 2,021, at each place of streams whose P is below, at and above such
//! charges, as best effort at its limit, and among small frames, over ticks and transmits.

use crate::call::Call;
use crate::comparing::coverage::LARGEST_TAGGED;
use crate::comparing::random::Random;
use crate::conformance::groups::numbers;
use crate::conformance::groups::played::Played;
use crate::model::port::{LARGEST_CHARGE, LEAST_CHARGE};

/// P below, at and above the charge of the largest tagged frame and of the largest frame, and of two and three such frames.
const PERMITTED: [u32; 10] = [
    LARGEST_TAGGED - 1,
    LARGEST_TAGGED,
    LARGEST_TAGGED + 1,
    1_800,
    LARGEST_CHARGE - 1,
    LARGEST_CHARGE,
    LARGEST_CHARGE + 1,
    LARGEST_CHARGE + LEAST_CHARGE,
    2 * LARGEST_CHARGE,
    3 * LARGEST_CHARGE,
];

/// The P of a stream beside them that has small frames alone.
const SMALL: u32 = 300;

/// Charges about those of the largest tagged frame and of the largest frame, and between; the last is none.
const ABOUT: [u32; 10] = [
    LARGEST_TAGGED - 1,
    LARGEST_TAGGED,
    LARGEST_TAGGED + 1,
    LARGEST_TAGGED + 2,
    1_780,
    LARGEST_CHARGE - 24,
    LARGEST_CHARGE - 4,
    LARGEST_CHARGE - 1,
    LARGEST_CHARGE,
    LARGEST_CHARGE + 1,
];

/// The events: two streams of large frames and one of small ones, with best effort between.
pub fn events(random: &mut Random) -> Vec<Call> {
    let streams = numbers::streams(random, 3);
    let permitted = [random.pick(&PERMITTED), random.pick(&PERMITTED), SMALL];
    let mut played = numbers::reserved(&streams, &permitted, random.pick(&[0, 84, 478]), random.between(1..=3));
    let transmits = random.pick(&[20, 35]);
    for _ in 0..random.between(120..=220) {
        match random.weighted(&[45, 10, 18, transmits, 12]) {
            0 => large(random, &mut played, &streams[..2]),
            1 => small(random, &mut played, &streams),
            2 => played.tick(1),
            3 => played.transmit(1),
            _ => best_effort(random, &mut played),
        }
    }
    played.events()
}

/// A large frame of one of the streams: about the two largest charges, or near what is left.
fn large(random: &mut Random, played: &mut Played, streams: &[u8]) {
    let stream = random.pick(streams);
    let near = numbers::charge_near_left(random, played, stream);
    let about = random.pick(&ABOUT);
    played.arrive(stream, random.pick(&[about, about, near]));
}

/// A small frame of any of the streams, which may take what a large one would have needed.
fn small(random: &mut Random, played: &mut Played, streams: &[u8]) {
    played.arrive(random.pick(streams), random.between(LEAST_CHARGE..=SMALL));
}

/// A best-effort frame: a large one, or one that is just what the limit still takes or an octet beside it.
fn best_effort(random: &mut Random, played: &mut Played) {
    let (room, about) = (played.room(), random.pick(&ABOUT));
    let near = numbers::nearest_charge(random.pick(&[room, room + 1, room.saturating_sub(1)]));
    played.best_effort(random.pick(&[about, near, near]));
}
