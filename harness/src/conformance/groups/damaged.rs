//! The group `damaged`: files that are no good captures, at each thing of which refusals 21 to 24 speak; files of which two things are wrong, so that
//! the order of the checks decides; and files whose faults nobody looks at.

use crate::call::Call;
use crate::comparing::random::Random;
use crate::conformance::groups::chains::{among_each_other, Chains, NO_PORT};
use crate::conformance::groups::mixed;
use crate::model::capture::{
    BEST_EFFORT, FIRST_INDICES_AT, KIND_AT, LETTERS, MOST_OCTETS, NEXT_INDEX_AT, NUMBER_A_AT, NUMBER_B_AT, OPEN, PORTS, RECORD_OCTETS,
    RESERVE, STREAM_AT, TICK, TRANSMIT, ZEROS_AT,
};
use crate::model::octets::TWO;

/// A capture, and how its chains lie.
struct File {
    octets: Vec<u8>,
    chains: Chains,
}

/// One way to make a capture wrong.
type Damage = fn(&mut Random, &mut File);

/// Every way.
const DAMAGES: [Damage; 36] = [
    // 21
    |_, file| file.octets.clear(),
    |random, file| file.octets.truncate(1 + random.below(RECORD_OCTETS - 1)),
    |random, file| file.octets.truncate(file.octets.len() - 1 - random.below(RECORD_OCTETS - 1)),
    |_, file| file.octets.push(0),
    |_, file| file.octets.resize(MOST_OCTETS + 1, 0),
    |_, file| file.octets.resize(MOST_OCTETS + RECORD_OCTETS, 0),
    // 22
    |random, file| file.change(0, random.below(LETTERS.len()), 0x20),
    |random, file| file.change(0, random.below(LETTERS.len()), 0x01),
    |random, file| file.change(0, ZEROS_AT + random.below(4), 0x80),
    // 23, a first index
    |random, file| file.bad_first(random.below(PORTS), 0),
    |random, file| file.bad_first(random.below(PORTS), 1),
    |_, file| file.bad_first(PORTS - 1, 40_000),
    // 23, a next index
    |random, file| file.put_next(file.any(random), |own, _| own),
    |random, file| file.put_next(file.any(random), |own, _| 1.max(own - 1)),
    |random, file| file.put_next(file.any(random), |_, _| 1),
    |random, file| file.put_next(file.any(random), |_, count| count),
    |random, file| file.put_next(file.any(random), |own, count| count + own),
    |random, file| file.put_next(file.any(random), |_, _| usize::from(u16::MAX)),
    // 24
    |random, file| file.put(file.any(random), KIND_AT, 0),
    |random, file| file.put(file.any(random), KIND_AT, 7),
    |random, file| file.put(file.any(random), KIND_AT, random.pick(&[9, 0x81, 255])),
    |random, file| file.put(file.of_kind(random, &[OPEN, TICK, TRANSMIT]), STREAM_AT, random.pick(&[1, 255])),
    |random, file| file.put(file.of_kind(random, &[BEST_EFFORT]), STREAM_AT, random.pick(&[0, 63, 253, 254])),
    |random, file| file.put(file.of_kind(random, &[RESERVE]), NUMBER_B_AT + random.below(4), 1),
    |random, file| file.put(file.of_kind(random, &[TICK, TRANSMIT]), NUMBER_A_AT + random.below(4), 1),
    |random, file| file.put(file.of_kind(random, &[TICK, TRANSMIT]), NUMBER_B_AT + random.below(4), 128),
    |random, file| file.put(file.any(random), ZEROS_AT + random.below(4), random.pick(&[1, 255])),
    // Orders
    length_before_letters,
    letters_before_first_index,
    kind_before_next_index,
    next_index_before_a_later_kind,
    kind_before_a_later_next_index,
    kind_before_a_later_first_index,
    first_index_before_a_later_kind,
    port_after_port,
    // Nothing wrong
    unused_record,
];
/// How many ways there are.
pub const WAYS: usize = DAMAGES.len();

/// A capture that is wrong in one of the ways.
pub fn capture(random: &mut Random, way: usize) -> Vec<u8> {
    let ports = [(); PORTS].map(|()| every_kind(random));
    let unused = 1 + random.below(3);
    let order = among_each_other(random, &ports, unused);
    let chains = Chains::of(ports, &order);
    let mut file = File { octets: chains.octets(random), chains };
    DAMAGES[way](random, &mut file);
    file.octets
}

/// An event of each kind, and a few more.
fn every_kind(random: &mut Random) -> Vec<Call> {
    let mut events = vec![
        Call::Open { link: 2_620, delay: 1 },
        Call::Reserve { stream: 5, permitted: 200 },
        Call::Arrive { stream: 5, charge: 120, tag: 3 },
        Call::BestEffort { charge: 400, tag: 4 },
        Call::Tick,
        Call::Transmit,
    ];
    let more = random.below(6);
    events.extend(mixed::events(random, more));
    events
}

impl File {
    /// Changes bits of an octet of a record.
    fn change(&mut self, index: usize, at: usize, bits: u8) {
        self.octets[index * RECORD_OCTETS + at] ^= bits;
    }

    /// Writes an octet of a record.
    fn put(&mut self, index: usize, at: usize, octet: u8) {
        self.octets[index * RECORD_OCTETS + at] = octet;
    }

    /// Writes a number of two octets into a record.
    fn put_index(&mut self, index: usize, at: usize, number: usize) {
        let [high, low] = (number as u16).to_be_bytes();
        self.put(index, at, high);
        self.put(index, at + 1, low);
    }

    /// How many records the file has.
    fn count(&self) -> usize {
        self.octets.len() / RECORD_OCTETS
    }

    /// Gives a port a first index so far above the last that is good.
    fn bad_first(&mut self, port: usize, above: usize) {
        self.put_index(0, FIRST_INDICES_AT + TWO * port, self.count() + above);
    }

    /// Gives a record the next index that is found from its own and the record count.
    fn put_next(&mut self, index: usize, next: fn(usize, usize) -> usize) {
        self.put_index(index, NEXT_INDEX_AT, next(index, self.count()));
    }

    /// The index of any record on a chain.
    fn any(&self, random: &mut Random) -> usize {
        let port = random.below(PORTS);
        random.pick(&self.chains.indices(port))
    }

    /// The index of a record on a chain of one of these kinds.
    fn of_kind(&self, random: &mut Random, kinds: &[u8]) -> usize {
        let kind = |index: usize| self.octets[index * RECORD_OCTETS + KIND_AT];
        let indices = self.chains.indices(random.below(PORTS));
        random.pick(&indices.into_iter().filter(|&index| kinds.contains(&kind(index))).collect::<Vec<_>>())
    }

    /// The indices of two records of one chain, the earlier first.
    fn two_of_a_chain(&self, random: &mut Random) -> (usize, usize) {
        let indices = self.chains.indices(random.below(PORTS));
        let later = 1 + random.below(indices.len() - 1);
        (indices[random.below(later)], indices[later])
    }
}

/// Two ports, the earlier first.
fn two_ports(random: &mut Random) -> (usize, usize) {
    random.pick(&[(0, 1), (0, 2), (0, 3), (1, 2), (1, 3), (2, 3)])
}

/// 21 before 22.
fn length_before_letters(random: &mut Random, file: &mut File) {
    file.change(0, random.below(LETTERS.len()), 1);
    file.octets.push(0);
}

/// 22 before 23.
fn letters_before_first_index(random: &mut Random, file: &mut File) {
    file.change(0, random.below(LETTERS.len()), 1);
    file.bad_first(0, 0);
}

/// "24 before 23 at a record".
fn kind_before_next_index(random: &mut Random, file: &mut File) {
    let index = file.any(random);
    file.put(index, KIND_AT, random.pick(&[0, 7]));
    file.put_next(index, |own, _| own);
}

/// "each chain from its front": 23 at a record, 24 at a later one of the chain.
fn next_index_before_a_later_kind(random: &mut Random, file: &mut File) {
    let (earlier, later) = file.two_of_a_chain(random);
    file.put_next(earlier, |_, count| count);
    file.put(later, KIND_AT, 0);
}

/// 24 at a record, 23 at a later one of the chain.
fn kind_before_a_later_next_index(random: &mut Random, file: &mut File) {
    let (earlier, later) = file.two_of_a_chain(random);
    file.put(earlier, KIND_AT, 7);
    file.put_next(later, |_, count| count);
}

/// "the first index tested as a port's walk begins": 24 on one port's chain, 23 at the first index of a later one.
fn kind_before_a_later_first_index(random: &mut Random, file: &mut File) {
    let (earlier, later) = two_ports(random);
    let index = random.pick(&file.chains.indices(earlier));
    file.put(index, KIND_AT, 0);
    file.bad_first(later, 0);
}

/// 23 at the first index of one port, 24 on a later one's chain.
fn first_index_before_a_later_kind(random: &mut Random, file: &mut File) {
    let (earlier, later) = two_ports(random);
    let index = random.pick(&file.chains.indices(later));
    file.bad_first(earlier, 0);
    file.put(index, KIND_AT, 0);
}

/// "Ports are walked in order": 23 at a record of one port, 24 at one of a later port, which may stand before it in the file.
fn port_after_port(random: &mut Random, file: &mut File) {
    let (earlier, later) = two_ports(random);
    let (index, other) = (random.pick(&file.chains.indices(earlier)), random.pick(&file.chains.indices(later)));
    file.put_next(index, |own, _| own);
    file.put(other, KIND_AT, 0);
}

/// "Records on no chain are ignored": whatever is wrong with them, the file is a good one.
fn unused_record(random: &mut Random, file: &mut File) {
    let on_chains: Vec<usize> = (0..NO_PORT).flat_map(|port| file.chains.indices(port)).collect();
    let unused = (1..file.count()).filter(|index| !on_chains.contains(index));
    for index in unused.collect::<Vec<_>>() {
        file.put(index, KIND_AT, random.pick(&[0, OPEN, TICK, 7]));
        file.put_next(index, |own, _| own);
    }
}
