//! From a recording to a capture: a plant's own packets, as a pcap file has them, become the events of one port, with ticks and transmits by the
//! packets' times. captures/README.md says what the tool is given and what it tells.
//!
//! The pcap file is the recording, the port's file is the capture, and the text that gives L, K, the reservations, the bindings, the withdrawals
//! and the epoch's length is the plan. `header` and `pcap` read the recording, `plan` the plan, `frames` makes a packet the frame that the port
//! would get, `link` puts ticks and transmits between the calls that frames become, `turning` makes the capture, `report` says what became of
//! packets and withdrawals.

pub mod frames;
pub mod header;
pub mod link;
pub mod pcap;
pub mod plan;
pub mod report;
#[cfg(test)]
mod tests;
pub mod tool;
pub mod turning;
