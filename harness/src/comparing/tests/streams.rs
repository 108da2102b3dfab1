//! The kind `streams`: the proved rule of one stream by itself, in a record that the test keeps, against the model's Arrive on an open port that has the
//! stream in the same state and nothing else.

use crate::call::{Call, Reply, Stream};
use crate::comparing::coverage::Seen;
use crate::comparing::fit::Octets;
use crate::comparing::test::{Kind, Run, Test};
use crate::layout::{self, put_two, two};
use crate::model::port::{share, CHARGES, CURRENT, DELAYS, LAST, LEAST_PERMITTED, LINKS, MARK_YES};
use crate::model::refusal::DISCARD;

/// The tests of this kind.
pub const TESTS: [Test; 2] = [
    Test { kind: Kind::Streams, name: "ends_of_every_range", body: ends_of_every_range },
    Test { kind: Kind::Streams, name: "any_fit_stream", body: any_fit_stream },
];

/// The stream's number in the model's port.
const NUMBER: usize = 5;

/// Every place, with P, left and charge at and beside each end that the rule asks about.
fn ends_of_every_range(run: &mut Run) -> Result<(), String> {
    let (least, largest) = (*CHARGES.start(), *CHARGES.end());
    for permitted in [LEAST_PERMITTED, least + 1, 2 * least, 200, largest - 1, largest, largest + 1, 2 * largest, share(*LINKS.end())] {
        for left in near(&[0, least, permitted / 2, permitted], 0, permitted) {
            for charge in near(&[least, left, permitted, largest], least, largest) {
                arrive_at_each_place(run, permitted, left, charge)?;
            }
        }
    }
    demand_each_answer(run, 50)
}

/// Streams of any P, place and left that 19 lets be, and any charge.
fn any_fit_stream(run: &mut Run) -> Result<(), String> {
    for _ in 0..run.scaled(20_000) {
        let mut random = run.next_record("a stream");
        let most = random.pick(&[400, 4_000, share(*LINKS.end())]);
        let permitted = random.between(LEAST_PERMITTED..=most);
        let left = random.between(0..=permitted);
        let charge = random.between(CHARGES);
        let exact = left.clamp(*CHARGES.start(), *CHARGES.end());
        arrive_at_each_place(run, permitted, left, random.pick(&[charge, charge, exact]))?;
    }
    demand_each_answer(run, 1_000)
}

/// The numbers from one below to one above each of these, within two ends.
fn near(numbers: &[u32], least: u32, largest: u32) -> Vec<u32> {
    numbers.iter().flat_map(|number| number.saturating_sub(1)..=number + 1).filter(|number| (least..=largest).contains(number)).collect()
}

/// Every place was joined, by exact fits too, and frames were discarded.
fn demand_each_answer(run: &Run, times: u64) -> Result<(), String> {
    for place in CURRENT..=LAST {
        run.demand(&[(Seen::JoinedAt(place), times), (Seen::ExactFitAt(place), times / 10)])?;
    }
    run.demand(&[(Seen::Refused(DISCARD), times)])
}

/// The arrival on the stream at each of its places.
fn arrive_at_each_place(run: &mut Run, permitted: u32, left: u32, charge: u32) -> Result<(), String> {
    for place in CURRENT..=LAST {
        let stream = Stream { reserved: true, permitted: permitted as u16, place, left: left as u16 };
        let mut kept = stream;
        let reply = (run.sides.stream)(&mut kept, charge as u16);
        let modelled = modelled(run, stream, charge);
        if (reply, kept) != modelled {
            return Err(format!("charge {charge} on {stream:?}: exports {reply}, {kept:?}; model {}, {:?}", modelled.0, modelled.1));
        }
    }
    Ok(())
}

/// The model's reply to the arrival, and the stream after it.
fn modelled(run: &mut Run, stream: Stream, charge: u32) -> (Reply, Stream) {
    let Octets { mut record, mut memory } = port_of(stream);
    let call = Call::Arrive { stream: NUMBER as u8, charge, tag: 0 };
    let reply = (run.sides.model)(&call.given(), &mut record, &mut memory);
    run.count_call(&call, &reply, &record, false);
    let entry = layout::entry(NUMBER);
    let (permitted, left) = (two(&record, entry + layout::PERMITTED) as u16, two(&record, entry + layout::LEFT) as u16);
    (reply, Stream { reserved: layout::is_reserved(&record, NUMBER), permitted, place: record[entry + layout::PLACE], left })
}

/// An open port that has the stream in its state, and nothing else.
fn port_of(stream: Stream) -> Octets {
    let mut octets = Octets::zero();
    octets.record[layout::OPEN] = MARK_YES;
    octets.record[layout::DELAY] = *DELAYS.start() as u8;
    put_two(&mut octets.record, layout::LINK, *LINKS.end());
    let entry = layout::entry(NUMBER);
    octets.record[entry + layout::RESERVED] = MARK_YES;
    octets.record[entry + layout::PLACE] = stream.place;
    put_two(&mut octets.record, entry + layout::LEFT, stream.left.into());
    put_two(&mut octets.record, entry + layout::PERMITTED, stream.permitted.into());
    octets
}
