//! What the calls reply where they are granted: types for what the two reply numbers mean, and how they are read.

use crate::exports::ADDRESS_OCTETS;
use crate::refusal::Refusal;
use crate::STREAMS;

/// The two reply numbers of a granted call.
pub type Numbers = (u32, u32);

/// The stream that Transmit replies for best effort and a lookup where it finds none, and the one that Transmit replies for nothing.
const OF_BEST_EFFORT: u32 = 255;
const OF_NOTHING: u32 = 254;
/// The last stream.
const LAST_STREAM: u32 = STREAMS as u32 - 1;
/// The least charge, so the least W after a frame has joined best effort.
const LEAST_CHARGE: u32 = 84;

/// The queue that a reserved stream's frame has joined, by its role at that time.
///
/// While the link sends enough (the link condition, docs/GUARANTEE.md), the frame is sent before the second tick after it where this is current,
/// before the third where it is next, and before the fourth where it is last.
#[derive(Clone, Copy, Debug, PartialEq, Eq, Hash)]
pub enum Queue {
    /// 1: it is sent from in this epoch.
    Current,
    /// 2: it becomes current at the next tick.
    Next,
    /// 3: it becomes current at the tick after the next.
    Last,
}

/// What Arrive replies.
#[derive(Clone, Copy, Debug, PartialEq, Eq, Hash)]
pub struct Joined {
    /// The queue that the frame has joined.
    pub queue: Queue,
    /// The octets still free to the stream at its place after the step. Where the frame took all that was free at current or next, that place
    /// is already the one after it, and all of P is free there.
    pub left: u32,
}

/// What Reserve replies.
#[derive(Clone, Copy, Debug, PartialEq, Eq, Hash)]
pub struct Reserved {
    /// The octets of the share that are still free, with the new P taken off.
    pub free: u32,
}

/// What Tick replies.
#[derive(Clone, Copy, Debug, PartialEq, Eq, Hash)]
pub struct Purged {
    /// How many frames were purged: accepted, and lost because the link did not send them in time.
    pub frames: u32,
    /// The sum of their charges.
    pub octets: u32,
}

/// What Transmit replies: the frame that the link is to send.
#[derive(Clone, Copy, Debug, PartialEq, Eq, Hash)]
pub enum Sent {
    /// A reserved stream's frame.
    Reserved {
        /// The stream.
        stream: u8,
        /// The frame's tag.
        tag: u32,
    },
    /// A best-effort frame.
    BestEffort {
        /// The frame's tag.
        tag: u32,
    },
    /// Nothing: prior, current and best effort are empty.
    Nothing,
}

/// What Best effort replies.
#[derive(Clone, Copy, Debug, PartialEq, Eq, Hash)]
pub struct Waiting {
    /// W, the sum of the charges that wait in best effort, with this frame's in it.
    pub octets: u32,
}

/// What Frame replies: what the call that it became replies.
#[derive(Clone, Copy, Debug, PartialEq, Eq, Hash)]
pub enum Framed {
    /// Its destination and VID are bound to a stream: it was an Arrive on that stream.
    Arrived(Joined),
    /// They are not: it was a Best effort.
    BestEffort(Waiting),
}

/// What a lookup replies.
#[derive(Clone, Copy, Debug, PartialEq, Eq, Hash)]
pub struct Lookup {
    /// The stream that is bound to the pair. Where none is, a Frame of the pair is a Best effort.
    pub stream: Option<u8>,
    /// How many address octets were compared: the sum over all bindings gone through, the octets that differ among them.
    pub compared: u32,
}

/// Stops at a reply that is none of the rule's. The contracts of the exports say that none such comes, so the library that is linked is not the
/// proved one, or something else wrote this program's memory.
#[cold]
pub(crate) fn outside(reply: &str) -> ! {
    panic!("{reply} is none of the rule's: the library that is linked is not the proved one (`bash examples/run` builds it)")
}

/// Stops at two numbers that a call does not reply.
#[cold]
pub(crate) fn no_reply((first, second): Numbers, call: &str) -> ! {
    outside(&format!("the reply {first} {second} to {call}"))
}

/// The reply of a call for which no refusal is left on a port that is fit and open: an access to a register that there is, a lookup, and the counts of
/// a stream that there is.
pub(crate) fn never_refused(replied: Result<Numbers, Refusal>, call: &str) -> Numbers {
    replied.unwrap_or_else(|refusal| outside(&format!("the refusal {} to {call}", refusal.number())))
}

/// Open's reply, "share, 0": the share.
pub(crate) fn share(numbers: Numbers) -> u32 {
    match numbers {
        (share, 0) => share,
        _ => no_reply(numbers, "Open"),
    }
}

/// Bind's reply, "two zeros".
pub(crate) fn bound(numbers: Numbers) {
    match numbers {
        (0, 0) => (),
        _ => no_reply(numbers, "Bind"),
    }
}

/// Withdraw's reply, "two zeros".
pub(crate) fn withdrawn(numbers: Numbers) {
    match numbers {
        (0, 0) => (),
        _ => no_reply(numbers, "Withdraw"),
    }
}

impl Reserved {
    /// "share still free, 0".
    pub(crate) fn of(numbers: Numbers) -> Reserved {
        match numbers {
            (free, 0) => Reserved { free },
            _ => no_reply(numbers, "Reserve"),
        }
    }
}

impl Joined {
    /// "queue joined (1 current, 2 next, 3 last), left after the step".
    pub(crate) fn of(numbers: Numbers) -> Joined {
        let (queue, left) = match numbers {
            (1, left) => (Queue::Current, left),
            (2, left) => (Queue::Next, left),
            (3, left) => (Queue::Last, left),
            _ => no_reply(numbers, "an arrival"),
        };
        Joined { queue, left }
    }
}

impl Purged {
    /// "frames, octets purged".
    pub(crate) fn of((frames, octets): Numbers) -> Purged {
        Purged { frames, octets }
    }
}

impl Sent {
    /// "stream (255 best effort, 254 nothing), tag (0 for nothing)".
    pub(crate) fn of(numbers: Numbers) -> Sent {
        match numbers {
            (stream @ ..=LAST_STREAM, tag) => Sent::Reserved { stream: stream as u8, tag },
            (OF_BEST_EFFORT, tag) => Sent::BestEffort { tag },
            (OF_NOTHING, 0) => Sent::Nothing,
            _ => no_reply(numbers, "Transmit"),
        }
    }
}

impl Waiting {
    /// "W after, 0": the new frame's charge is in W, so it is at least 84.
    pub(crate) fn of(numbers: Numbers) -> Waiting {
        match numbers {
            (octets @ LEAST_CHARGE.., 0) => Waiting { octets },
            _ => no_reply(numbers, "a best-effort frame"),
        }
    }
}

impl Framed {
    /// "Frame replies as the call that it becomes". Which that was the first number tells: an arrival's is 1 to 3, and W after an accepted frame is
    /// at least 84.
    pub(crate) fn of(numbers: Numbers) -> Framed {
        match numbers.0 {
            LEAST_CHARGE.. => Framed::BestEffort(Waiting::of(numbers)),
            _ => Framed::Arrived(Joined::of(numbers)),
        }
    }
}

impl Lookup {
    /// The stream, or 255, and "the number of address octets so compared": of each binding gone through at most six, and six of the one that matches.
    pub(crate) fn of(numbers: Numbers) -> Lookup {
        let octets = ADDRESS_OCTETS as u32;
        match numbers {
            (stream @ ..=LAST_STREAM, compared) if (octets..=octets * (stream + 1)).contains(&compared) => {
                Lookup { stream: Some(stream as u8), compared }
            }
            (OF_BEST_EFFORT, compared) if compared <= octets * (LAST_STREAM + 1) => Lookup { stream: None, compared },
            _ => no_reply(numbers, "a lookup"),
        }
    }
}

/// Whether the numbers are read as no reply at all.
#[cfg(test)]
pub(crate) fn stops<T>(of: fn(Numbers) -> T, numbers: Numbers) -> bool {
    std::panic::catch_unwind(|| of(numbers)).is_err()
}

#[cfg(test)]
mod tests {
    use super::*;

    #[test]
    fn calls_without_refusals_are_read() {
        assert_eq!(never_refused(Ok((7, 0)), "a lookup"), (7, 0));
    }

    /// A refusal where none is left is handed on as no value.
    #[test]
    #[should_panic(expected = "the refusal 19 to a lookup is none of the rule's")]
    fn a_refusal_where_none_is_left_stops() {
        never_refused(Err(Refusal::UnfitRecord), "a lookup");
    }

    #[test]
    fn the_share_is_read() {
        assert_eq!(share((600, 0)), 600);
        assert!(stops(share, (600, 1)));
    }

    #[test]
    fn what_is_free_is_read() {
        assert_eq!(Reserved::of((0, 0)), Reserved { free: 0 });
        assert_eq!(Reserved::of((400, 0)), Reserved { free: 400 });
        assert!(stops(Reserved::of, (0, 400)));
    }

    #[test]
    fn arrivals_are_read() {
        assert_eq!(Joined::of((1, 80)), Joined { queue: Queue::Current, left: 80 });
        assert_eq!(Joined::of((2, 3)), Joined { queue: Queue::Next, left: 3 });
        assert_eq!(Joined::of((3, 0)), Joined { queue: Queue::Last, left: 0 });
        assert!([0, 4, u32::MAX].into_iter().all(|queue| stops(Joined::of, (queue, 1))));
    }

    #[test]
    fn purges_are_read() {
        assert_eq!(Purged::of((2, 204)), Purged { frames: 2, octets: 204 });
    }

    #[test]
    fn sent_frames_are_read() {
        assert_eq!(Sent::of((0, 7)), Sent::Reserved { stream: 0, tag: 7 });
        assert_eq!(Sent::of((63, 254)), Sent::Reserved { stream: 63, tag: 254 });
        assert_eq!(Sent::of((255, 0)), Sent::BestEffort { tag: 0 });
        assert_eq!(Sent::of((254, 0)), Sent::Nothing);
        assert!([(64, 7), (253, 0), (254, 7), (256, 0), (256 + 5, 7)].into_iter().all(|numbers| stops(Sent::of, numbers)));
    }

    #[test]
    fn what_waits_is_read() {
        assert_eq!(Waiting::of((84, 0)), Waiting { octets: 84 });
        assert!([(83, 0), (1, 80), (84, 1)].into_iter().all(|numbers| stops(Waiting::of, numbers)));
    }

    #[test]
    fn frames_are_read_as_what_they_became() {
        assert_eq!(Framed::of((3, 116)), Framed::Arrived(Joined { queue: Queue::Last, left: 116 }));
        assert_eq!(Framed::of((84, 0)), Framed::BestEffort(Waiting { octets: 84 }));
        assert!([(0, 0), (4, 0), (83, 0), (84, 1)].into_iter().all(|numbers| stops(Framed::of, numbers)));
    }

    #[test]
    fn lookups_are_read() {
        assert_eq!(Lookup::of((0, 6)), Lookup { stream: Some(0), compared: 6 });
        assert_eq!(Lookup::of((63, 384)), Lookup { stream: Some(63), compared: 384 });
        assert_eq!(Lookup::of((255, 0)), Lookup { stream: None, compared: 0 });
        assert_eq!(Lookup::of((255, 384)), Lookup { stream: None, compared: 384 });
        let wrong = [(0, 5), (0, 7), (63, 385), (64, 6), (254, 0), (255, 385), (256, 0), (256 + 5, 6)];
        assert!(wrong.into_iter().all(|numbers| stops(Lookup::of, numbers)));
    }

    #[test]
    fn bindings_are_read() {
        bound((0, 0));
        assert!([(1, 0), (0, 1)].into_iter().all(|numbers| stops(bound, numbers)));
    }

    #[test]
    fn withdrawals_are_read() {
        withdrawn((0, 0));
        assert!([(1, 0), (0, 1)].into_iter().all(|numbers| stops(withdrawn, numbers)));
    }
}
