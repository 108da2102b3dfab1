//! Evidence that the must-fail edits are wrong programs, and not merely rewritten ones. A prover refuses an equivalent program too, where its proof no
//! longer fits; so for each wrong program of an edit file this asks, beside a refusal of each function and law that it names, for something that
//! only a wrong program shows: a case on which its code prints something else, a law that computes to something else, or a proved law that says the
//! opposite. The arithmetic's words that a goal fails at some numbers are no such thing: it says so too where it cannot read a rewritten definition.

mod code;
pub mod judging;
mod laws;
mod logs;
pub mod proving;
pub mod reading;
pub mod repository;
pub mod trying;
mod values;
