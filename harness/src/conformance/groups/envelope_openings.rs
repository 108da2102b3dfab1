//! The group `envelope_openings`: openings with L at and about both ends of its range, and about those that a largest charge of 1,542 would give it; then
//! the share to its last octet, reservations that would fit a share of L less 1,542 and exceed the one that there is, and best effort up to L less R.

use crate::call::Call;
use crate::comparing::coverage::LARGEST_TAGGED;
use crate::comparing::random::Random;
use crate::conformance::groups::chains::{among_each_other, Chains};
use crate::conformance::groups::numbers;
use crate::conformance::groups::played::Played;
use crate::model::capture::PORTS;
use crate::model::port::{share, LEAST_CHARGE, LEAST_PERMITTED};

/// How many captures have each an own part of the L below.
pub const PARTS: usize = 15;

/// L that is granted, one for each port of these captures.
fn granted() -> impl Iterator<Item = u32> {
    (2_104..=2_123).chain(2_138..=2_147).chain(23_041..=23_051).chain(23_510..=23_524).chain([2_620, 5_000, 10_000, 15_625])
}

/// L that is refused with 3.
fn refused() -> impl Iterator<Item = u32> {
    (1_541..=1_543).chain(1_620..=1_632).chain((1_640..2_010).step_by(37)).chain(2_010..=2_103).chain(23_525..=23_540)
}

/// A capture of four ports, each opened with an L of the capture's part.
pub fn capture(random: &mut Random, part: usize) -> Vec<u8> {
    let mut port = part * PORTS;
    let ports = [(); PORTS].map(|()| {
        port += 1;
        events(random, port - 1)
    });
    let order = among_each_other(random, &ports, 0);
    Chains::of(ports, &order).octets(random)
}

/// The events of a port of all: openings that are refused, now and then a call that finds the port closed, an opening that is granted, and what
/// follows from its share.
fn events(random: &mut Random, port: usize) -> Vec<Call> {
    let mut played = Played::closed();
    for link in refused().skip(port).step_by(PARTS * PORTS) {
        played.play(Call::Open { link, delay: random.between(1..=16) });
        if random.chance(30) {
            played.reserve(5, LEAST_PERMITTED);
        }
    }
    let link = granted().nth(port).expect("there is an L for each port");
    played.play(Call::Open { link, delay: random.between(1..=3) });
    to_the_share(random, &mut played, link);
    for _ in 0..random.between(6..=14) {
        traffic(random, &mut played);
    }
    played.play(Call::Open { link: link - 1, delay: 1 });
    played.events()
}

/// Reservations of more than the share, then of parts that fill it, with one octet more than is free asked before each.
fn to_the_share(random: &mut Random, played: &mut Played, link: u32) {
    let streams = numbers::streams(random, 3);
    for permitted in [link, link - LARGEST_TAGGED, share(link) + 1] {
        played.reserve(streams[0], permitted);
    }
    for &stream in &streams {
        let free = played.free();
        played.reserve(stream, free + 1);
        let part = random.between(LEAST_PERMITTED..=free.max(LEAST_PERMITTED));
        played.reserve(stream, random.pick(&[part, free, LEAST_PERMITTED]));
    }
}

/// A frame of a reserved stream, best effort to its limit and one octet above it, a transmit or a tick.
fn traffic(random: &mut Random, played: &mut Played) {
    let reserved = played.reserved_streams();
    match random.weighted(&[35, 30, 20, 15]) {
        0 if !reserved.is_empty() => {
            let stream = random.pick(&reserved);
            let charge = numbers::charge_near_left(random, played, stream);
            played.arrive(stream, charge);
        }
        0 | 1 => {
            let room = numbers::nearest_charge(played.room());
            played.best_effort(random.pick(&[room, room + 1, room, LEAST_CHARGE]));
        }
        2 => played.transmit(1),
        _ => played.tick(1),
    }
}
