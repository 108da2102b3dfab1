//! Good captures: chains of several shapes through the records of a file, with events that press the ports on which they are played.

use crate::call::Call;
use crate::capture::file::{self, Record};
use crate::comparing::calls::Profile;
use crate::comparing::compared::Step;
use crate::comparing::coverage::{prior_waits, Coverage, Seen};
use crate::comparing::draining::{ending, Freed};
use crate::comparing::fit::Octets;
use crate::comparing::random::Random;
use crate::in_place;
use crate::model::capture::PORTS;

/// How chains run: the first index of each port, and the next index of each record; that of record 0 stands for nothing.
pub struct Links {
    first: [usize; PORTS],
    next: Vec<usize>,
}

/// Makes the chains of a shape through so many records after record 0.
pub type Shape = fn(&mut Random, usize) -> Links;

/// The shapes that the tests try, each with its name.
const SHAPES: [(&str, Shape); 6] = [
    ("one chain", one_chain),
    ("four ports on one chain", four_ports_on_one_chain),
    ("runs", runs),
    ("interleaved chains", interleaved),
    ("shared tails", shared_tails),
    ("scattered records", scattered),
];

/// The shapes in turn: the one of a capture's number, with its name.
pub fn shape_in_turn(number: usize) -> (&'static str, Shape) {
    SHAPES[number % SHAPES.len()]
}

/// Any of the shapes.
pub fn any_shape(random: &mut Random) -> Shape {
    random.pick(&SHAPES).1
}

/// One chain of all records, on one port.
fn one_chain(random: &mut Random, records: usize) -> Links {
    let mut links = four_ports_on_one_chain(random, records);
    let port = random.below(PORTS);
    links.first = [0; PORTS];
    links.first[port] = 1;
    links
}

/// One chain of all records, on all four ports.
fn four_ports_on_one_chain(_: &mut Random, records: usize) -> Links {
    Links { first: [1; PORTS], next: (0..=records).map(|index| following(index, records)).collect() }
}

/// The index of the record that follows in the file, or 0 after the last.
fn following(index: usize, records: usize) -> usize {
    if index < records {
        index + 1
    } else {
        0
    }
}

/// The records of each port one after another, the ports in any order.
fn runs(random: &mut Random, records: usize) -> Links {
    let (ports, parts) = (random.shuffled(PORTS), random.between(1..=PORTS as u32) as usize);
    linked(records, [0; PORTS], |index| ports[(index - 1) * parts / records])
}

/// Each record on any of the ports.
fn interleaved(random: &mut Random, records: usize) -> Links {
    let ports = random.shuffled(PORTS)[..random.between(2..=PORTS as u32) as usize].to_vec();
    linked(records, [0; PORTS], |_| random.pick(&ports))
}

/// Chains of which each has its own records, then one tail for all; some ports start in the middle of that.
fn shared_tails(random: &mut Random, records: usize) -> Links {
    let own = random.below(records);
    let mut links = linked(own, [own + 1; PORTS], |_| random.below(PORTS));
    links.next.extend((own + 1..=records).map(|index| following(index, records)));
    for port in 0..PORTS {
        if random.chance(25) {
            links.first[port] = own + 1 + random.below(records - own);
        }
    }
    links
}

/// Records of which each goes on to any of the next few, so that some are on no chain and some on several; some ports do not start.
fn scattered(random: &mut Random, records: usize) -> Links {
    let ahead = random.pick(&[2, 2, 5, 40]);
    let next = (0..=records).map(|index| scattered_next(random, records, index, ahead)).collect();
    Links { first: [(); PORTS].map(|()| scattered_first(random, records, ahead)), next }
}

/// The next index of a record that goes on to any of the next few, and now and then to none.
fn scattered_next(random: &mut Random, records: usize, index: usize, ahead: usize) -> usize {
    let chosen = index + 1 + random.below(ahead);
    if chosen <= records && !random.chance(1) {
        chosen
    } else {
        0
    }
}

/// A first index, most often one of the first few.
fn scattered_first(random: &mut Random, records: usize, ahead: usize) -> usize {
    let (early, any) = (1 + random.below(ahead.min(records)), 1 + random.below(records));
    random.pick(&[0, early, early, early, any])
}

/// Chains of records of which each is on the port that is given for it; each chain ends by going on to an index, or 0.
fn linked(records: usize, ends: [usize; PORTS], mut port_of: impl FnMut(usize) -> usize) -> Links {
    let (mut first, mut next) = (ends, vec![0; records + 1]);
    for index in (1..=records).rev() {
        let port = port_of(index);
        next[index] = first[port];
        first[port] = index;
    }
    Links { first, next }
}

/// A good capture of a shape with so many records after record 0 and events of a profile; counts what the events do on each port.
pub fn capture(coverage: &mut Coverage, random: &mut Random, shape: Shape, records: usize, profile: &Profile) -> Vec<u8> {
    let links = shape(random, records);
    let events = events(coverage, random, &links, profile);
    let mut octets = file::header(links.first.map(|index| index as u16)).to_vec();
    for (event, &next) in events.iter().zip(&links.next).skip(1) {
        octets.extend(match event {
            Some(event) => file::record(event, next as u16),
            None => unused(coverage, random),
        });
    }
    octets
}

/// The event of each record that is on a chain; record 0 has none.
fn events(coverage: &mut Coverage, random: &mut Random, links: &Links, profile: &Profile) -> Vec<Option<Call>> {
    let mut events = vec![None; links.next.len()];
    for first in links.first {
        walk(coverage, random, links, first, profile, &mut events);
    }
    events
}

/// Plays one port's chain, and gives an event to each record that has none yet.
fn walk(coverage: &mut Coverage, random: &mut Random, links: &Links, first: usize, profile: &Profile, events: &mut [Option<Call>]) {
    let Octets { mut record, mut memory } = Octets::zero();
    let (mut index, mut freed) = (first, Freed::default());
    while index != 0 {
        coverage.add(Seen::SharedRecord, u64::from(events[index].is_some()));
        let event = events[index].get_or_insert_with(|| any_event(random, profile, &record));
        let (prior_waited, ending) = (prior_waits(&record), ending(event, &record));
        let reply = in_place::call(&event.given(), &mut record, &mut memory);
        coverage.count_call(event, &reply, &record, prior_waited);
        freed.follow(coverage, event, &reply, &ending);
        index = links.next[index];
    }
    coverage.add(Seen::PortWithoutEvents, u64::from(first == 0));
}

/// An event of a profile, on a port with this record; a capture has no event that binds, brings a frame by its octets, names a register, looks a
/// pair up, asks for a stream's counts or closes a port.
fn any_event(random: &mut Random, profile: &Profile, record: &[u8]) -> Call {
    loop {
        match profile.step(random, record) {
            Step::Call(Call::Bind { .. } | Call::Frame { .. } | Call::ReadRegister { .. } | Call::WriteRegister { .. }) => (),
            Step::Call(Call::Lookup { .. } | Call::StreamCounts { .. }) | Step::HostWrites { .. } => (),
            Step::Call(event) => return event,
        }
    }
}

/// A record on no chain: any octets.
fn unused(coverage: &mut Coverage, random: &mut Random) -> Record {
    coverage.count(Seen::UnusedRecord);
    let mut record = Record::default();
    random.fill(&mut record);
    record
}
