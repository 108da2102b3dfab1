//! Demand 3 and the claims about a stream's counts seen from outside: lists of calls from a granted Open, played on a port of any make, and the claims
//! read off the replies alone.
//!
//! `list` plays a list twice and sees that both plays leave the same record, `becoming` tells what each call counts as, `claims` holds one list
//! against the demand and `pairs` two, `taken` holds its replies against the numbers, share and pairs that its granted calls take, `counts` what it
//! tells of its streams' counts against its replies, all by the numbers of `ranges` and without a model of the port; `writing` and `alike` make the
//! lists, and may look into the record to make them hard.

pub mod alike;
pub mod becoming;
pub mod claims;
#[cfg(test)]
mod count_tests;
pub mod counts;
pub mod found;
#[cfg(test)]
mod frame_tests;
pub mod list;
pub mod pairs;
pub mod ranges;
#[cfg(test)]
mod register_tests;
pub mod taken;
#[cfg(test)]
mod tests;
#[cfg(test)]
mod withdraw_tests;
pub mod writing;
