//! Each of the nine calls, each access to a register, the lookup and the question for a stream's counts, with good and bad arguments, tried on one
//! record after another.

use crate::comparing::calls::each_call;
use crate::comparing::compared::Compared;
use crate::comparing::coverage::{is_envelope, Seen};
use crate::comparing::fit::Octets;
use crate::comparing::random::Random;
use crate::comparing::shapes::{each_shape_and_lengths, with_lengths, Shape};
use crate::comparing::sides::Side;
use crate::comparing::test::Run;
use crate::model::fitness::{memory_short, unfit};
use crate::model::octets::frames;
use crate::model::port::QUEUES;

/// Tries each call on so many records of a shape.
pub fn try_shape(run: &mut Run, sides: [Side; 2], shape: (&str, Shape), records: usize) -> Result<(), String> {
    for _ in 0..run.scaled(records) {
        let mut random = run.next_record(shape.0);
        let octets = shape.1(&mut random);
        let compared = Compared::guarded(sides, run, &octets.record, &octets.memory);
        try_each_call(run, &mut random, compared, &octets)?;
    }
    Ok(())
}

/// Tries each call on records of every shape at every pair of lengths, so many times; `lend` gives them to the two sides.
pub fn try_lengths(run: &mut Run, times: usize, lend: impl Fn(&Run, &mut Random, &Octets) -> Compared) -> Result<(), String> {
    for (shape, (record, memory)) in each_shape_and_lengths(run.scaled(times)) {
        let mut random = run.next_record(&format!("{}, lengths {record} and {memory}", shape.0));
        let octets = with_lengths(&shape.1(&mut random), &mut random, record, memory);
        let compared = lend(run, &mut random, &octets);
        try_each_call(run, &mut random, compared, &octets)?;
    }
    Ok(())
}

/// Tries each call, each time on the same octets.
pub fn try_each_call(run: &mut Run, random: &mut Random, mut compared: Compared, octets: &Octets) -> Result<(), String> {
    let fit = unfit(&octets.record, &octets.memory).is_empty();
    run.coverage.count(if fit { Seen::FitRecord } else { Seen::UnfitRecord });
    run.coverage.add(Seen::EnvelopeWaits, u64::from(fit && !memory_short(&octets.memory) && envelope_waits(octets)));
    for call in each_call(random, &octets.record) {
        compared.lend_again(&octets.record, &octets.memory);
        compared.call(run, &call)?;
    }
    Ok(())
}

/// Whether an envelope frame waits in a queue of a fit record whose memory is long enough.
fn envelope_waits(octets: &Octets) -> bool {
    (0..QUEUES).flat_map(|queue| frames(&octets.record, &octets.memory, queue)).any(|frame| is_envelope(frame.charge))
}
