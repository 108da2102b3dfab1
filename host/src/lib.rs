//! The proved port for a host in Rust.
//!
//! A [`Port`] runs the paternoster algorithm of document 01: four epoch queues for reserved streams and one for best effort. It owns its record and
//! the memory for its frames, and its methods are calls of the library that is proved to hold to the rule, docs/RULE.md, of the edition
//! [`EDITION`]. The host calls [`tick`](Port::tick) where an epoch ends, [`transmit`](Port::transmit) when the link can send a frame, and
//! [`arrive`](Port::arrive), [`best_effort`](Port::best_effort) or [`frame`](Port::frame) when a frame comes; it keeps the frames themselves, under
//! their tags. It takes a stream off the line by [`withdraw`](Port::withdraw). A node's controller sees the port as [`Register`]s: it ticks and
//! transmits by [`control`](Port::control), and is told by an interrupt line that frames were discarded or purged. Which stream's frames they were,
//! support sees by [`stream_counts`](Port::stream_counts). What it costs to find a frame's stream, [`lookup`](Port::lookup) tells. What a port
//! guarantees in return, docs/GUARANTEE.md says.
//!
//! The library is built, with its proofs, by `bash examples/run` in the repository.
//!
//! # Example: two ports of a node relay a stream over an epoch's end
//!
//! Each frame of the stream goes out by both ports, to a neighbour each. The ports' ticks are not synchronized: an epoch of the second port ends
//! between two frames, so the second frame waits for the next epoch at the first port, and not at the second.
//!
//! ```
//! use bunnysolder::{Joined, Port, Purged, Queue, Refusal, Reserved, Sent};
//!
//! // L = 2,620 and K = 1 at both ports: the share is 2,620 − 2,020 = 600. Stream 5 gets P = 200 of it, so 600 − 200 = 400 are still free.
//! let mut first = Port::open(2_620, 1)?;
//! let mut second = Port::open(2_620, 1)?;
//! assert_eq!([first.share(), second.share()], [600, 600]);
//! assert_eq!(first.reserve(5, 200)?, Reserved { free: 400 });
//! assert_eq!(second.reserve(5, 200)?, Reserved { free: 400 });
//!
//! // Frame 7: 120 ≤ 200, so it joins current at both ports, and 200 − 120 = 80 are left.
//! assert_eq!(first.arrive(5, 120, 7)?, Joined { queue: Queue::Current, left: 80 });
//! assert_eq!(second.arrive(5, 120, 7)?, Joined { queue: Queue::Current, left: 80 });
//!
//! // An epoch of the second port ends. Prior was empty, so nothing is purged; frame 7 is in prior now, and the stream is at current with 200 again.
//! assert_eq!(second.tick()?, Purged { frames: 0, octets: 0 });
//!
//! // Frame 8. At the first port 100 > 80, so the stream advances to next with all 200 left, and the frame joins next. At the second 100 ≤ 200.
//! assert_eq!(first.arrive(5, 100, 8)?, Joined { queue: Queue::Next, left: 100 });
//! assert_eq!(second.arrive(5, 100, 8)?, Joined { queue: Queue::Current, left: 100 });
//!
//! // The first port sends frame 7 from current, and then nothing: frame 8 waits in next. The second sends 7 from prior and 8 from current.
//! assert_eq!(first.transmit()?, Sent::Reserved { stream: 5, tag: 7 });
//! assert_eq!(first.transmit()?, Sent::Nothing);
//! assert_eq!(second.transmit()?, Sent::Reserved { stream: 5, tag: 7 });
//! assert_eq!(second.transmit()?, Sent::Reserved { stream: 5, tag: 8 });
//!
//! // The epoch of the first port ends: next becomes current, and frame 8 is sent from there.
//! assert_eq!(first.tick()?, Purged { frames: 0, octets: 0 });
//! assert_eq!(first.transmit()?, Sent::Reserved { stream: 5, tag: 8 });
//!
//! // Frame 9 at the second port: 84 ≤ 100, so it joins current. No transmit comes there for two epochs' ends, so the link condition fails: the first
//! // tick makes the frame prior, the second purges it, 1 frame of 84 octets.
//! assert_eq!(second.arrive(5, 84, 9)?, Joined { queue: Queue::Current, left: 16 });
//! assert_eq!(second.tick()?, Purged { frames: 0, octets: 0 });
//! assert_eq!(second.tick()?, Purged { frames: 1, octets: 84 });
//! assert_eq!(second.transmit()?, Sent::Nothing);
//! # Ok::<(), Refusal>(())
//! ```

#![deny(unsafe_code, unsafe_op_in_unsafe_fn, missing_docs)]

/// The edition of the rule: the number of the last request of document 02 that the rule has; 0 is document 01 alone.
pub const EDITION: u32 = 5;

/// The streams of a port: they have the numbers from 0 up to one less than this.
pub const STREAMS: usize = 64;

/// The octets of the shortest frame that [`Port::frame`] takes, without check sequence; a driver pads to as many.
pub const SHORTEST_FRAME: usize = 60;

/// The octets of the longest frame that [`Port::frame`] takes, without check sequence; a driver's buffers have as many.
pub const LONGEST_FRAME: usize = 1_996;

#[allow(unsafe_code)]
mod exports;
mod port;
mod refusal;
mod register;
mod reply;

pub use exports::Address;
pub use port::Port;
pub use refusal::Refusal;
pub use register::{Control, Controlled, Flags, Mask, Register, Status, StreamCounts};
pub use reply::{Framed, Joined, Lookup, Purged, Queue, Reserved, Sent, Waiting};
