//! What a picture shows, read off where its elements stand; its file; its limits; and the tool. `xml` reads the file strictly, `seen` finds what a
//! reader of the picture sees, `letters` knows how wide texts are.

mod draining;
mod drawn;
mod file;
mod frames;
mod letters;
mod seen;
mod stored;
mod tool;
mod xml;

use crate::call::{Call, Reply};
use crate::capture::writing;
use crate::comparing::random::Random;
use crate::model::capture::events;
use crate::model::port::LARGEST_CHARGE;
use crate::timeline::{replied, MOST};

/// The events of port 0 of a text form that must be good, with their replies.
fn played(text: &str) -> Vec<(Call, Reply)> {
    let capture = writing::octets(text.as_bytes()).unwrap_or_else(|bad| panic!("{bad}, in\n{text}"));
    let ports = events(&capture).unwrap_or_else(|refused| panic!("{refused:?}, of\n{text}"));
    replied(&ports[0])
}

/// Document 01's sample.
const SAMPLE: &str = "port 0\nopen 2620 1\nreserve 5 200\narrive 5 120 7\narrive 5 100 8\ntransmit\ntransmit\ntick\ntransmit\n";

/// A list of as many events as a picture shows, on a port with two streams, with their replies.
fn any_events(random: &mut Random) -> Vec<(Call, Reply)> {
    let reserves = [(5, 300), (63, 500)].map(|(stream, permitted)| Call::Reserve { stream, permitted });
    let mut events = vec![Call::Open { link: 3_000, delay: 2 }];
    events.extend(reserves);
    let weights = random.pick(&[[5, 2, 1, 4, 0, 0], [4, 1, 3, 1, 1, 1], [2, 4, 2, 4, 1, 1], [4, 1, 6, 4, 1, 2]]);
    events.extend((events.len()..MOST).map(|before| any_event(random, &weights, before as u32)));
    replied(&events)
}

/// An arrival, best effort, a tick, a transmit, a withdrawal or a reservation, each as often as its weight says; now and then a tag comes again.
fn any_event(random: &mut Random, weights: &[usize], number: u32) -> Call {
    let tag = if random.chance(10) { 3 } else { number };
    match random.weighted(weights) {
        0 => Call::Arrive { stream: random.pick(&[5, 63]), charge: random.pick(&[84, 100, 150, 300]), tag },
        1 => Call::BestEffort { charge: random.pick(&[84, 400, LARGEST_CHARGE]), tag },
        2 => Call::Tick,
        3 => Call::Transmit,
        4 => Call::Withdraw { stream: random.pick(&[5, 63]) },
        _ => Call::Reserve { stream: random.pick(&[5, 63]), permitted: random.pick(&[84, 300]) },
    }
}
