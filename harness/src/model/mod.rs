//! A plain model of a port: the state read from its octets, the rule run on it in the document's words, the state written back; of the two calls that
//! only ask of a port; and of `replay`, on the plain state alone.
//!
//! It is written from document 01, the requests of document 02 that have landed and their settled readings alone, and knows nothing of the proved
//! code against which it is held.
//! It is meant to be read line by line, not to be fast.

pub mod calls;
pub mod capture;
#[cfg(test)]
mod count_tests;
#[cfg(test)]
mod envelope_tests;
pub mod fitness;
pub mod frame;
#[cfg(test)]
mod frame_tests;
pub mod lookup;
#[cfg(test)]
mod lookup_tests;
pub mod octets;
pub mod port;
pub mod refusal;
#[cfg(test)]
mod register_tests;
pub mod registers;
pub mod replay;
pub mod rule;
#[cfg(test)]
mod tests;
#[cfg(test)]
mod withdraw_tests;

pub use calls::call;
