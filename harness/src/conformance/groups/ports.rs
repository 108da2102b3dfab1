//! The group `ports`: several ports, whose chains lie one after another or among each other, share records or leave some unused. Each port is a fresh
//! one.

use crate::call::Call;
use crate::capture::file::MOST_RECORDS;
use crate::comparing::random::Random;
use crate::conformance::groups::chains::{among_each_other, one_after_another, Chains};
use crate::conformance::groups::mixed;
use crate::model::capture::PORTS;

/// How chains can lie.
pub const LAYOUTS: usize = 8;

/// A capture of a layout.
pub fn capture(random: &mut Random, layout: usize) -> Vec<u8> {
    let chains = match layout {
        0 => in_runs(random),
        1 => mingled(random, 60, 0),
        2 => all_on_one_chain(random),
        3 => shared_tail(random),
        4 => started_in_the_middle(random),
        5 => mingled(random, 40, 40),
        6 => some_without_events(random),
        _ => long(random),
    };
    chains.octets(random)
}

/// The events of each port, up to so many.
fn events(random: &mut Random, most: u32) -> [Vec<Call>; PORTS] {
    [(); PORTS].map(|()| {
        let count = random.between(1..=most) as usize;
        mixed::events(random, count)
    })
}

/// The records of each port one after another, the ports in any order.
fn in_runs(random: &mut Random) -> Chains {
    let ports = events(random, 100);
    let order = one_after_another(&ports, &random.shuffled(PORTS));
    Chains::of(ports, &order)
}

/// Each record on any of the ports, and up to so many on none.
fn mingled(random: &mut Random, most: u32, most_unused: usize) -> Chains {
    let ports = events(random, most);
    let unused = random.below(most_unused + 1);
    let order = among_each_other(random, &ports, unused);
    Chains::of(ports, &order)
}

/// One chain on several ports, all four most often.
fn all_on_one_chain(random: &mut Random) -> Chains {
    let [one, ..] = events(random, 120);
    let mut chains = in_order([one, vec![], vec![], vec![]]);
    chains.first = random.pick(&[[1, 1, 1, 1], [1, 1, 1, 1], [1, 0, 0, 1], [0, 1, 1, 0]]);
    chains
}

/// Ports 0 to 2 with a front of their own, then one tail for all of them and for port 3.
fn shared_tail(random: &mut Random) -> Chains {
    let mut chains = in_order(events(random, 60));
    let tail = chains.first[3];
    (0..3).for_each(|port| chains.goes_on(port, tail));
    chains
}

/// One chain, on which some ports start at its front and others in its middle, so that these were never opened.
fn started_in_the_middle(random: &mut Random) -> Chains {
    let [one, two, ..] = events(random, 80);
    let mut chains = in_order([one, two, vec![], vec![]]);
    let mut starts = || 1 + random.below(chains.records.len());
    (chains.first[2], chains.first[3]) = (starts(), starts());
    chains
}

/// One to three ports with events, the others with none.
fn some_without_events(random: &mut Random) -> Chains {
    let mut ports = events(random, 80);
    for port in random.shuffled(PORTS).into_iter().take(1 + random.below(3)) {
        ports[port].clear();
    }
    in_order(ports)
}

/// Long chains, with as many records as a file can have or fewer.
fn long(random: &mut Random) -> Chains {
    let counts = random.pick(&[[1_200, 700, 2_000, MOST_RECORDS - 3_900], [1_300, 300, 2, 1]]);
    let ports = counts.map(|count| mixed::events(random, count));
    let order = one_after_another(&ports, &random.shuffled(PORTS));
    Chains::of(ports, &order)
}

/// The records of ports 0 to 3, in this order.
fn in_order(ports: [Vec<Call>; PORTS]) -> Chains {
    let order = one_after_another(&ports, &[0, 1, 2, 3]);
    Chains::of(ports, &order)
}
