//! The group `withdraw_files`: files with records of kind 7 on several ports, good ones with every sort of stream octet, and such with an unused number,
//! another kind or other zero octets in their place.

use crate::call::Call;
use crate::comparing::random::Random;
use crate::conformance::groups::chains::{among_each_other, Chains};
use crate::conformance::groups::drains;
use crate::model::capture::{KIND_AT, NEXT_INDEX_AT, NUMBER_A_AT, NUMBER_B_AT, PORTS, RECORD_OCTETS, STREAM_AT, WITHDRAW, ZEROS_AT};

/// How many events a port has at most before and after its withdrawal.
const EVENTS: usize = 30;

/// One way to change the octets of a record of kind 7.
type Change = fn(&mut Random, &mut [u8]);

/// Every way: a good file first, then files that are refused.
const CHANGES: [Change; 14] = [
    |_, _| (),
    |random, record| record[STREAM_AT] = random.pick(&[0, 63]),
    |random, record| record[STREAM_AT] = random.pick(&[64, 128, 254, 255]),
    |random, record| record[NUMBER_A_AT + random.below(4)] = 1,
    |random, record| record[NUMBER_A_AT + random.below(4)] = 128,
    |random, record| record[NUMBER_B_AT + random.below(4)] = 1,
    |random, record| record[NUMBER_B_AT + random.below(4)] = 128,
    |random, record| record[ZEROS_AT + random.below(4)] = random.pick(&[1, 255]),
    |_, record| record[KIND_AT] = WITHDRAW + 1,
    |random, record| record[KIND_AT] = random.pick(&[0, 0x07 | 0x80, 0x70]),
    |_, record| record[NEXT_INDEX_AT + 1] = 1,
    // A stream octet that kinds without a stream must not have, and no such kind.
    |_, record| record[STREAM_AT] = 1,
    // 24 before 23 at a record.
    |_, record| (record[NUMBER_A_AT], record[NEXT_INDEX_AT]) = (1, 255),
    // Nothing wrong but the next index.
    |_, record| record[NEXT_INDEX_AT] = 255,
];
/// How many ways there are.
pub const WAYS: usize = CHANGES.len();

/// A capture of four ports in which one record of kind 7 is changed in one of the ways.
pub fn capture(random: &mut Random, way: usize) -> Vec<u8> {
    let ports = [(); PORTS].map(|()| with_a_withdrawal(random));
    let unused = random.below(4);
    let order = among_each_other(random, &ports, unused);
    let chains = Chains::of(ports, &order);
    let mut octets = chains.octets(random);
    let on_chains: Vec<usize> = (0..PORTS).flat_map(|port| chains.indices(port)).collect();
    let of_kind_7 = on_chains.into_iter().filter(|index| octets[index * RECORD_OCTETS + KIND_AT] == WITHDRAW).collect::<Vec<_>>();
    let at = random.pick(&of_kind_7) * RECORD_OCTETS;
    CHANGES[way](random, &mut octets[at..at + RECORD_OCTETS]);
    octets
}

/// A few events of a long run, with a withdrawal of a stream of theirs.
fn with_a_withdrawal(random: &mut Random) -> Vec<Call> {
    let mut events = drains::events(random);
    events.truncate(EVENTS);
    let Some(stream) = events.iter().find_map(|event| if let Call::Reserve { stream, .. } = event { Some(*stream) } else { None }) else {
        unreachable!("every run begins with reservations")
    };
    let at = EVENTS / 2 + random.below(EVENTS / 2);
    events.insert(at, Call::Withdraw { stream });
    events
}
