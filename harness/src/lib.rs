//! Evidence about the port and the program `replay` from outside their proof: the outside program (an independent model of the calls and of the
//! replay of captures, and the quick calls in plain Rust), the exported calls as a host declares them, the tests that compare them, demand 3 read off
//! lists of calls, captures as a person writes and reads them, captures made of a plant's own recordings, pictures of a port's events, the conformance
//! set for other makes, the evidence that the must-fail edits are wrong programs, and the text of the rule held against what it names.

pub mod batches;
pub mod call;
pub mod capture;
pub mod command_line;
pub mod comparing;
pub mod conformance;
#[cfg(test)]
mod documents;
pub mod edits;
pub mod exports;
pub mod guarantee;
pub mod in_place;
pub mod layout;
pub mod model;
pub mod recording;
pub mod running;
pub mod seeding;
pub mod sharing;
pub mod timeline;
