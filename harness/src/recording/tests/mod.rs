//! The tool's own tests: recordings are made here, and what becomes of them is written down or, for random ones, found packet by packet.

mod any;
mod epochs;
mod frames;
mod made;
mod pace;
mod plans;
mod reading;
mod reports;
mod stored;
mod withdrawals;
