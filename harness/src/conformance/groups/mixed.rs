//! The group `mixed`: long runs of everything, most of it granted, over many epochs.

use crate::call::Call;
use crate::comparing::random::Random;
use crate::conformance::groups::numbers::{self, ABOUT_LINKS};
use crate::conformance::groups::played::Played;
use crate::model::port::{BEST_EFFORT_STREAM, DELAYS, LARGEST_CHARGE, LEAST_CHARGE, LEAST_PERMITTED, STREAMS};

/// The events of a long run.
pub fn long_run(random: &mut Random) -> Vec<Call> {
    let most = random.between(300..=700) as usize;
    events(random, most)
}

/// So many events: a port with a few streams, of whose calls each sort is as frequent as it happens.
pub fn events(random: &mut Random, most: usize) -> Vec<Call> {
    let count = 1 + random.below(10);
    let streams = numbers::streams(random, count);
    let permitted: Vec<u32> = streams.iter().map(|_| random.between(LEAST_PERMITTED..=2_100)).collect();
    let mut played = numbers::reserved(&streams, &permitted, random.between(0..=1_000), random.between(DELAYS));
    let weights = [random.pick(&[25, 40]), (50 / count).max(6), random.pick(&[20, 40]), random.pick(&[3, 10]), 1, 1];
    while (played.next_number() as usize) <= most {
        match random.weighted(&weights) {
            0 => arrive(random, &mut played, &streams),
            1 => played.tick(1),
            2 => played.transmit(1),
            3 => played.best_effort(random.between(LEAST_CHARGE..=LARGEST_CHARGE)),
            4 => reserve(random, &mut played),
            _ => drop(played.play(Call::Open { link: random.between(ABOUT_LINKS), delay: random.between(0..=17) })),
        }
    }
    let mut events = played.events();
    events.truncate(most);
    events
}

/// A frame, most often one that a stream's P takes.
fn arrive(random: &mut Random, played: &mut Played, streams: &[u8]) {
    let stream = random.pick(streams);
    let charge = match random.weighted(&[75, 22, 3]) {
        0 => numbers::charge_within(random, played.permitted(stream)),
        1 => numbers::charge_near_left(random, played, stream),
        _ => random.between(LEAST_CHARGE - 10..=LARGEST_CHARGE + 10),
    };
    played.arrive(stream, charge);
}

/// A reservation of any stream and of about what is still free.
fn reserve(random: &mut Random, played: &mut Played) {
    let any = random.below(STREAMS) as u8;
    let stream = random.pick(&[any, any, any, BEST_EFFORT_STREAM as u8]);
    played.reserve(stream, random.between(0..=played.free() + LEAST_PERMITTED));
}
