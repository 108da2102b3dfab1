//! The group `phases`: the same traffic with the tick at every phase. Each of the senders offers at most P in each epoch of its own, but now and then
//! a frame more, and the ticks of the port, which are not synchronized with them, come one event later in each further capture.

use crate::call::Call;
use crate::comparing::random::Random;
use crate::conformance::groups::numbers::{self, FEW_FRAMES};
use crate::model::port::LEAST_CHARGE;

/// How many events stand between two ticks, so that the tick has as many phases.
pub const PHASES: usize = 12;
/// How many epochs the senders have.
const EPOCHS: usize = 18;
/// How many frames an epoch has at most, so that transmits have room in it.
const MOST_FRAMES: usize = 8;

/// What one sender's epoch offers: stream and charge of each frame, in order.
type Offers = Vec<(u8, u32)>;

/// The events of a traffic with the ticks at a phase.
pub fn events(random: &mut Random, phase: usize) -> Vec<Call> {
    let count = 1 + random.below(4);
    let streams = numbers::streams(random, count);
    let permitted: Vec<u32> = streams.iter().map(|_| random.pick(&FEW_FRAMES)).collect();
    let mut played = numbers::reserved(&streams, &permitted, random.pick(&[0, 84, 600]), random.between(1..=3));
    for (before, event) in traffic(random, &streams, &permitted).into_iter().enumerate() {
        if before % PHASES == phase {
            played.tick(1);
        }
        played.play(tagged(event, before as u32 + 1));
    }
    played.events()
}

/// An event of the traffic with its number there for its tag, which is the same at every phase.
fn tagged(event: Call, number: u32) -> Call {
    match event {
        Call::Arrive { stream, charge, .. } => Call::Arrive { stream, charge, tag: number },
        Call::BestEffort { charge, .. } => Call::BestEffort { charge, tag: number },
        other => other,
    }
}

/// The traffic: in each of the senders' epochs as many events as the tick has phases, frames and transmits.
fn traffic(random: &mut Random, streams: &[u8], permitted: &[u32]) -> Vec<Call> {
    let (mut late, mut events) = (Offers::new(), Vec::new());
    for _ in 0..EPOCHS {
        let mut offers = std::mem::take(&mut late);
        let own = offers_of_an_epoch(random, streams, permitted);
        // An epoch's frames may be under way until the next, so that two epochs' offers come at once.
        if random.chance(20) {
            late = own;
        } else {
            offers.extend(own);
        }
        offers.truncate(MOST_FRAMES);
        events.extend(arranged(random, &offers));
    }
    events
}

/// What the streams offer in one epoch: P cut into one, two or three frames, now and then one frame more.
fn offers_of_an_epoch(random: &mut Random, streams: &[u8], permitted: &[u32]) -> Offers {
    let mut offers = Offers::new();
    for (&stream, &permitted) in streams.iter().zip(permitted) {
        offers.extend(cut(random, permitted).into_iter().map(|charge| (stream, charge)));
        if random.chance(8) {
            offers.push((stream, numbers::charge_within(random, permitted)));
        }
    }
    offers
}

/// Frames of together at most P: P whole, two parts, the least charge and the rest, or frames that leave something over.
fn cut(random: &mut Random, permitted: u32) -> Vec<u32> {
    let half = permitted / 2;
    let cuts = [
        vec![permitted],
        vec![half, permitted - half],
        vec![LEAST_CHARGE, permitted - LEAST_CHARGE],
        vec![permitted - LEAST_CHARGE, LEAST_CHARGE],
        vec![half + 1],
        vec![LEAST_CHARGE, LEAST_CHARGE],
        vec![permitted / 3, permitted / 3, permitted / 3],
        vec![],
    ];
    random.pick(&cuts).into_iter().filter(|&charge| charge >= LEAST_CHARGE).collect()
}

/// An epoch's events: the frames before, behind or among the others, which are transmits and best-effort frames.
fn arranged(random: &mut Random, offers: &[(u8, u32)]) -> Vec<Call> {
    let frames = offers.iter().map(|&(stream, charge)| Call::Arrive { stream, charge, tag: 0 });
    let others: Vec<Call> = (offers.len()..PHASES).map(|_| other(random)).collect();
    match random.below(4) {
        0 => frames.chain(others).collect(),
        1 => others.into_iter().chain(frames).collect(),
        _ => among(random, frames.collect(), others),
    }
}

/// A transmit, or now and then a best-effort frame.
fn other(random: &mut Random) -> Call {
    match random.chance(25) {
        true => Call::BestEffort { charge: random.between(84..=600), tag: 0 },
        false => Call::Transmit,
    }
}

/// Frames among other events, the order of the frames kept.
fn among(random: &mut Random, frames: Vec<Call>, others: Vec<Call>) -> Vec<Call> {
    let all = frames.len() + others.len();
    let mut places = random.shuffled(all)[..frames.len()].to_vec();
    places.sort_unstable();
    let (mut frames, mut others) = (frames.into_iter(), others.into_iter());
    (0..all).filter_map(|place| if places.contains(&place) { frames.next() } else { others.next() }).collect()
}
