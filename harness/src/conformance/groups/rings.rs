//! The group `rings`: queues that fill their 256 places, and best effort that goes round them several times.

use crate::call::Call;
use crate::comparing::random::Random;
use crate::conformance::groups::numbers;
use crate::conformance::groups::played::Played;
use crate::model::port::{share, LARGEST_CHARGE, LEAST_CHARGE, LINKS, QUEUE_PLACES, STREAMS};

/// Which queues are filled: those of reserved traffic by one stream, by all streams, or that of best effort.
pub const SORTS: usize = 3;

/// L at which the share holds 256 frames of the least charge.
const FULL_LINK: u32 = *LINKS.end();

/// The events of a sort.
pub fn events(random: &mut Random, sort: usize) -> Vec<Call> {
    match sort {
        0 => reserved(random, 1),
        1 => reserved(random, STREAMS),
        _ => best_effort(random),
    }
}

/// Frames of the least charge, of so many streams that have all of the share: a queue takes 256 of them.
fn reserved(random: &mut Random, count: usize) -> Vec<Call> {
    let streams = numbers::streams(random, count);
    let permitted = vec![share(FULL_LINK) / count as u32; count];
    let mut played = numbers::reserved(&streams, &permitted, 0, random.between(1..=16));
    for _ in 0..3 {
        fill(random, &mut played, &streams);
        played.transmit(random.pick(&[0, 3, 100, 300]));
        played.tick(1);
    }
    played.transmit(random.pick(&[10, 200]));
    played.events()
}

/// So many frames that one queue is filled, or one and a frame more, or all three and a frame more.
fn fill(random: &mut Random, played: &mut Played, streams: &[u8]) {
    for number in 0..random.pick(&[QUEUE_PLACES, QUEUE_PLACES + 1, 3 * QUEUE_PLACES + 1]) {
        played.arrive(streams[number % streams.len()], LEAST_CHARGE);
    }
}

/// Best-effort frames up to 256 and a few more, of which some are refused by another number too, sent in runs of any length, so that their places are
/// gone round several times.
fn best_effort(random: &mut Random) -> Vec<Call> {
    let (link, delay) = random.pick(&[(FULL_LINK, 1), (FULL_LINK, 16), (11_000, 2), (11_600, 2), (5_000, 5)]);
    let mut played = Played::opened(link, delay);
    for _ in 0..random.between(4..=7) {
        let missing = QUEUE_PLACES - played.best_effort_waiting();
        (0..random.pick(&[missing, missing, missing / 2])).for_each(|_| played.best_effort(LEAST_CHARGE));
        (0..random.below(8)).for_each(|_| played.best_effort(random.pick(&[LEAST_CHARGE - 1, LEAST_CHARGE, LEAST_CHARGE, LARGEST_CHARGE])));
        played.transmit(random.pick(&[1, 2, 90, 170, 255, 256]));
        played.tick(random.below(2));
    }
    played.transmit(QUEUE_PLACES + 1);
    played.events()
}
