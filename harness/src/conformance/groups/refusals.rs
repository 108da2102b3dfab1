//! The group `refusals`: calls of which several things are wrong at once, so that the order of the checks decides, on closed ports and on open ones,
//! and traffic between, which shows that a refusal changed nothing.

use crate::call::Call;
use crate::comparing::random::Random;
use crate::conformance::groups::numbers::{self, FEW_FRAMES};
use crate::conformance::groups::played::Played;
use crate::model::port::{BEST_EFFORT_STREAM, CHARGES, DELAYS, LEAST_CHARGE, LINKS, STREAMS};

/// Stream numbers that no port has.
const ABOVE: [u8; 3] = [STREAMS as u8, STREAMS as u8 + 1, BEST_EFFORT_STREAM as u8];

/// The events: wrong calls on a closed port, its opening, then wrong calls among traffic.
pub fn events(random: &mut Random) -> Vec<Call> {
    let streams = numbers::streams(random, 3);
    let permitted = [random.pick(&FEW_FRAMES), random.pick(&FEW_FRAMES)];
    let mut played = Played::closed();
    wrong_calls(random, &mut played, &streams, 6);
    played.play(Call::Open { link: numbers::link(permitted.iter().sum(), random.pick(&[0, 100])), delay: random.between(1..=2) });
    played.reserve(streams[0], permitted[0]);
    wrong_calls(random, &mut played, &streams, 3);
    played.reserve(streams[1], permitted[1]);
    for _ in 0..random.between(20..=40) {
        wrong_calls(random, &mut played, &streams, 2);
        right_calls(random, &mut played, &streams[..2]);
    }
    played.events()
}

/// At most so many calls, of which each argument may be wrong.
fn wrong_calls(random: &mut Random, played: &mut Played, streams: &[u8], most: usize) {
    for _ in 0..random.below(most + 1) {
        let call = wrong_call(random, played.next_number(), streams);
        played.play(call);
    }
}

/// A call of which each argument may be wrong.
fn wrong_call(random: &mut Random, tag: u32, streams: &[u8]) -> Call {
    let above = random.pick(&ABOVE);
    let stream = random.pick(&[above, streams[0], streams[1], streams[2]]);
    let charge = random.pick(&[0, LEAST_CHARGE - 1, LEAST_CHARGE, 500, *CHARGES.end(), *CHARGES.end() + 1]);
    match random.weighted(&[15, 35, 35, 10, 3, 2]) {
        0 => {
            let link = random.pick(&[*LINKS.start() - 1, *LINKS.start(), 5_000, *LINKS.end() + 1]);
            Call::Open { link, delay: random.pick(&[*DELAYS.start() - 1, 1, *DELAYS.end() + 1]) }
        }
        1 => Call::Reserve { stream, permitted: random.pick(&[0, 83, 84, 25_000, u32::MAX]) },
        2 => Call::Arrive { stream, charge, tag },
        3 => Call::BestEffort { charge, tag },
        4 => Call::Tick,
        _ => Call::Transmit,
    }
}

/// A few frames of the streams, with transmits and now and then a tick.
fn right_calls(random: &mut Random, played: &mut Played, streams: &[u8]) {
    let stream = random.pick(streams);
    let charge = numbers::charge_near_left(random, played, stream);
    played.arrive(stream, charge);
    played.transmit(random.below(3));
    played.tick(usize::from(random.chance(35)));
}
