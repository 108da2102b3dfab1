//! The tests of each kind: `streams` holds the rule of one stream by itself against the model; `lists` and `sample` hold the calls against the model
//! on lists of calls, `records` on records of any content, and `quick` and `fences` are about the quick calls and about octets outside the lent ones;
//! `bindings` and `frames` are about Bind and Frame, `withdrawals` about Withdraw and draining streams, `registers` and `register_lists` about the
//! registers, `counts` about the counts of each stream, `lookups` about the binding lookup, `envelopes` about charges, lengths and L at the ends of
//! their ranges; `guarantee` holds lists of calls against demand 3; `captures` and `damaged` hold the program `replay` against the outside program's,
//! and `failing` is about its input and output themselves.

pub mod bindings;
pub mod captures;
pub mod counts;
pub mod damaged;
pub mod each_call;
pub mod envelopes;
pub mod failing;
pub mod fences;
pub mod frames;
pub mod guarantee;
pub mod lists;
pub mod lookups;
pub mod quick;
pub mod records;
pub mod register_lists;
pub mod registers;
pub mod sample;
pub mod streams;
pub mod withdrawals;

use crate::comparing::test::Test;

/// All tests, in the order in which they are run.
pub fn all() -> Vec<Test> {
    let of_calls = [&streams::TESTS[..], &sample::TESTS, &envelopes::TESTS, &lists::TESTS, &records::TESTS, &quick::TESTS, &fences::TESTS];
    let of_frames = [&bindings::TESTS[..], &frames::TESTS, &withdrawals::TESTS];
    let of_registers = [&registers::TESTS[..], &register_lists::TESTS, &counts::TESTS, &lookups::TESTS];
    let of_captures = [&captures::TESTS[..], &damaged::TESTS, &failing::TESTS];
    [of_calls.concat(), of_frames.concat(), of_registers.concat(), guarantee::TESTS.to_vec(), of_captures.concat()].concat()
}
