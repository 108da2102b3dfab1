//! The group `withdraw_refusals`: calls that name a draining stream and of which other things are wrong too, so that the order of the checks decides, on
//! closed ports and on open ones; and traffic between, which shows that a refusal changed nothing.

use crate::call::Call;
use crate::comparing::random::Random;
use crate::conformance::groups::numbers::{self, FEW_FRAMES};
use crate::conformance::groups::played::Played;
use crate::model::port::{BEST_EFFORT_STREAM, CHARGES, LEAST_CHARGE, LEAST_PERMITTED, STREAMS};

/// The events: wrong calls on a closed port, its opening, then wrong calls among traffic, while one stream is withdrawn, drains and is free.
pub fn events(random: &mut Random) -> Vec<Call> {
    let streams = numbers::streams(random, 3);
    let permitted = [random.pick(&FEW_FRAMES), random.pick(&FEW_FRAMES)];
    let mut played = Played::closed();
    (0..4).for_each(|_| wrong_call(random, &mut played, &streams));
    played.play(Call::Open { link: numbers::link(permitted.iter().sum(), random.pick(&[0, 100])), delay: 1 });
    played.reserve(streams[0], permitted[0]);
    played.reserve(streams[1], permitted[1]);
    for _ in 0..random.between(4..=7) {
        right_calls(random, &mut played, &streams[..2]);
        played.withdraw(streams[0]);
        for _ in 0..random.between(3..=5) {
            (0..random.below(4)).for_each(|_| wrong_call(random, &mut played, &streams));
            right_calls(random, &mut played, &streams[1..2]);
            played.tick(1);
        }
        played.reserve(streams[0], permitted[0]);
    }
    played.events()
}

/// A call that names a draining stream, one that is reserved, one that is not or one that no port has, and of which its number may be wrong.
fn wrong_call(random: &mut Random, played: &mut Played, streams: &[u8]) {
    let beside = streams[0].wrapping_add(STREAMS as u8 * random.between(1..=3) as u8);
    let above = random.pick(&[STREAMS as u8, BEST_EFFORT_STREAM as u8, beside]);
    let stream = random.pick(&[streams[0], streams[0], streams[0], streams[1], streams[2], above]);
    let charge = random.pick(&[0, LEAST_CHARGE - 1, LEAST_CHARGE, 700, *CHARGES.end(), *CHARGES.end() + 1]);
    let permitted = random.pick(&[0, LEAST_PERMITTED - 1, LEAST_PERMITTED, 25_000, u32::MAX]);
    match random.weighted(&[35, 35, 30]) {
        // A reservation that would be granted would change which streams there are.
        0 if !played.is_free(stream) || permitted < LEAST_PERMITTED || permitted > played.free() => played.reserve(stream, permitted),
        0 | 1 => played.arrive(stream, charge),
        _ if stream == streams[1] => played.arrive(stream, charge),
        _ => played.withdraw(stream),
    }
}

/// A few frames of the streams, with transmits.
fn right_calls(random: &mut Random, played: &mut Played, streams: &[u8]) {
    for _ in 0..random.between(1..=3) {
        let stream = random.pick(streams);
        let charge = numbers::charge_near_left(random, played, stream);
        played.arrive(stream, charge);
        played.transmit(random.below(3));
    }
}
