//! What was found in a list that is held against demand 3: whether the link condition holds, and how much of what it promises was seen; and what its
//! replies showed of the numbers that are taken, and of its streams' counts.

use std::fmt;

use crate::call::{Call, Reply};
use crate::model::refusal::{DRAINING, NOT_RESERVED};

/// Whether a list meets the link condition, and by what.
#[derive(Clone, Copy, Debug, PartialEq, Eq, PartialOrd, Ord)]
pub enum Link {
    /// Fewer than two ticks: there is nothing to meet.
    NothingToMeet,
    /// Between every two consecutive ticks the share was sent, and every transmit sent a reserved frame.
    ByOctets,
    /// Between every two consecutive ticks a transmit sent no reserved frame, and less than the share was sent.
    ByIdle,
    /// Between every two consecutive ticks one or the other, or both.
    ByBoth,
    /// Between some two consecutive ticks neither.
    Failed,
}

/// How a list breaks what is claimed of it: the number of a call, and words about it.
#[derive(Clone, Debug, PartialEq, Eq)]
pub struct Broken {
    pub call: usize,
    pub words: String,
}

/// The counts of one list.
#[derive(Clone, Copy, Debug, PartialEq, Eq)]
pub struct Found {
    pub link: Link,
    /// Ticks that purged a frame, or were refused.
    pub purging: u64,
    /// Reserved frames that were sent while another waited that differs from them in nothing but its mark.
    pub twins: u64,
    /// Frames that count as an Arrive, and Frames that count as a Best effort.
    pub frame_arrivals: u64,
    pub frame_best_efforts: u64,
    /// Control writes that count as a Tick, and those that count as a Transmit.
    pub control_ticks: u64,
    pub control_transmits: u64,
    /// Accepted reserved frames that were sent before the fourth tick after them, and those of them that were not before the third.
    pub sent_in_time: u64,
    pub sent_after_third: u64,
    /// Accepted reserved frames that were sent before the tick after the last one for which the queue of their reply can wait: those accepted as
    /// current, as next and as last, and those of all these that were sent after the tick before.
    pub sent_as_replied: [u64; 3],
    pub sent_as_replied_late: u64,
    /// The arrivals of streams that never offer more than P, from their grant to the end.
    pub conforming: Prompt,
    /// The arrivals of streams that never offer more than P, from their grant to their withdrawal.
    pub withdrawn: Prompt,
    /// The arrivals of other streams before the first that makes their offers more than P.
    pub beginning: Prompt,
}

/// Arrivals that were accepted as current; those of them that were sent before the second tick after them, and those of these that were not
/// before the first.
#[derive(Clone, Copy, Debug, Default, PartialEq, Eq)]
pub struct Prompt {
    pub current: u64,
    pub sent: u64,
    pub after_first: u64,
}

impl Found {
    /// Nothing found yet.
    pub fn with(link: Link) -> Found {
        let [conforming, withdrawn, beginning] = [Prompt::default(); 3];
        let (sent_as_replied, sent_as_replied_late) = ([0; 3], 0);
        Found {
            link,
            purging: 0,
            twins: 0,
            frame_arrivals: 0,
            frame_best_efforts: 0,
            control_ticks: 0,
            control_transmits: 0,
            sent_in_time: 0,
            sent_after_third: 0,
            sent_as_replied,
            sent_as_replied_late,
            conforming,
            withdrawn,
            beginning,
        }
    }

    /// The counts by what they show.
    pub fn shown(&self) -> [(Shown, u64); 24] {
        let [as_current, as_next, as_last] = self.sent_as_replied;
        [
            (Shown::Link(self.link), 1),
            (Shown::Purging, self.purging),
            (Shown::TwinsList, u64::from(self.twins > 0)),
            (Shown::Twin, self.twins),
            (Shown::FrameArrival, self.frame_arrivals),
            (Shown::FrameBestEffort, self.frame_best_efforts),
            (Shown::ControlTick, self.control_ticks),
            (Shown::ControlTransmit, self.control_transmits),
            (Shown::SentInTime, self.sent_in_time),
            (Shown::SentAfterThird, self.sent_after_third),
            (Shown::SentAsCurrent, as_current),
            (Shown::SentAsNext, as_next),
            (Shown::SentAsLast, as_last),
            (Shown::SentAsRepliedLate, self.sent_as_replied_late),
            (Shown::Conforming, self.conforming.current),
            (Shown::ConformingSent, self.conforming.sent),
            (Shown::ConformingAfterFirst, self.conforming.after_first),
            (Shown::Withdrawn, self.withdrawn.current),
            (Shown::WithdrawnSent, self.withdrawn.sent),
            (Shown::WithdrawnAfterFirst, self.withdrawn.after_first),
            (Shown::BeginningList, u64::from(self.beginning.current > 0)),
            (Shown::Beginning, self.beginning.current),
            (Shown::BeginningSent, self.beginning.sent),
            (Shown::BeginningAfterFirst, self.beginning.after_first),
        ]
    }
}

/// One kind of thing that lists show, for the counts of a test.
#[derive(Clone, Copy, Debug, PartialEq, Eq, PartialOrd, Ord)]
pub enum Shown {
    /// A list that meets the link condition, or fails it.
    Link(Link),
    /// A tick that purged a frame, or was refused.
    Purging,
    /// A list with such a frame as the next.
    TwinsList,
    /// A reserved frame that was sent while another waited that differs from it in nothing but its mark.
    Twin,
    /// A Frame that counts as an Arrive.
    FrameArrival,
    /// A Frame that counts as a Best effort.
    FrameBestEffort,
    /// A control write that counts as a Tick.
    ControlTick,
    /// A control write that counts as a Transmit.
    ControlTransmit,
    /// An accepted frame that was sent before the fourth tick after it.
    SentInTime,
    /// One of these that was not sent before the third.
    SentAfterThird,
    /// A frame that was accepted as current and sent before the second tick after it.
    SentAsCurrent,
    /// A frame that was accepted as next and sent before the third tick after it.
    SentAsNext,
    /// A frame that was accepted as last and sent before the fourth tick after it.
    SentAsLast,
    /// One of these three that was not sent before the tick before that.
    SentAsRepliedLate,
    /// An arrival, accepted as current, of a stream that never offers more than P from its grant to the end.
    Conforming,
    /// One of these that was sent before the second tick after it.
    ConformingSent,
    /// One of these that was not sent before the first.
    ConformingAfterFirst,
    /// An arrival, accepted as current, of a stream that never offers more than P from its grant to its withdrawal.
    Withdrawn,
    /// One of these that was sent before the second tick after it.
    WithdrawnSent,
    /// One of these that was not sent before the first.
    WithdrawnAfterFirst,
    /// A list with such an arrival as the next.
    BeginningList,
    /// An arrival, accepted as current, of a stream that did not offer more than P up to it, and later does.
    Beginning,
    /// One of these that was sent before the second tick after it.
    BeginningSent,
    /// One of these that was not sent before the first.
    BeginningAfterFirst,
    /// Two lists alike in ticks, in one stream's own calls and in which of its reservations are granted.
    Pair,
    /// Two lists alike in ticks and one stream's own calls, but not in which of its reservations are granted.
    PairApart,
    /// An arrival that got the same reply in both lists of a pair.
    ArrivalCompared,
    /// One of these that is a Frame in one list and an Arrive in the other.
    FrameCompared,
    /// A granted Withdraw.
    Withdrawal,
    /// A call that was refused with 25.
    RefusedDraining,
    /// An arrival, a withdrawal or a binding of a freed number, refused with 12.
    RefusedFree,
    /// A granted Reserve of a freed number.
    GrantedAgain,
    /// A Withdraw that was compared in both lists of a pair.
    WithdrawalCompared,
    /// A count other than 0 that is the same at the same place of both lists of a pair.
    CountCompared,
    /// A question for the counts of a stream on which frames arrived.
    CountAsked,
    /// A read of a count of the chosen stream, on which frames arrived.
    CountShown,
    /// A question for the counts of no stream, or a read of a count where none is chosen.
    CountOfNone,
    /// A question or a read of a stream with discards.
    DiscardsTold,
    /// A question or a read of a stream on which frames arrived since its withdrawal and before it.
    CountedAnew,
}

/// What the replies of a list showed of the numbers, share and pairs that are taken.
#[derive(Clone, Copy, Debug, Default, PartialEq, Eq)]
pub struct Numbers {
    pub withdrawals: u64,
    pub refused_draining: u64,
    pub refused_free: u64,
    pub granted_again: u64,
}

impl Numbers {
    /// Counts a call that replies what is due, and names a freed number or not.
    pub fn count(&mut self, call: &Call, reply: &Reply, is_freed: bool) {
        match (call, reply.refusal) {
            (Call::Withdraw { .. }, 0) => self.withdrawals += 1,
            (_, DRAINING) => self.refused_draining += 1,
            (Call::Reserve { .. }, 0) if is_freed => self.granted_again += 1,
            (_, NOT_RESERVED) if is_freed => self.refused_free += 1,
            _ => (),
        }
    }

    /// The counts by what they show.
    pub fn shown(&self) -> [(Shown, u64); 4] {
        [
            (Shown::Withdrawal, self.withdrawals),
            (Shown::RefusedDraining, self.refused_draining),
            (Shown::RefusedFree, self.refused_free),
            (Shown::GrantedAgain, self.granted_again),
        ]
    }
}

/// What a list told of its streams' counts: questions and reads of streams on which frames arrived, those of no stream, those of a stream with
/// discards, and those of a stream that counts anew since its withdrawal.
#[derive(Clone, Copy, Debug, Default, PartialEq, Eq)]
pub struct Counts {
    pub asked: u64,
    pub shown: u64,
    pub above: u64,
    pub discards: u64,
    pub anew: u64,
}

impl Counts {
    /// The counts by what they show.
    pub fn shown(&self) -> [(Shown, u64); 5] {
        [
            (Shown::CountAsked, self.asked),
            (Shown::CountShown, self.shown),
            (Shown::CountOfNone, self.above),
            (Shown::DiscardsTold, self.discards),
            (Shown::CountedAnew, self.anew),
        ]
    }
}

/// Two lists that are alike: how many arrivals were compared, how many of these are a Frame in one list and an Arrive in the other, how many
/// Withdraws of the stream there are, and how many of its counts other than 0 were compared.
#[derive(Clone, Copy, Debug, PartialEq, Eq)]
pub struct Alike {
    pub arrivals: u64,
    pub frames: u64,
    pub withdrawals: u64,
    pub counts: u64,
}

impl fmt::Display for Shown {
    fn fmt(&self, f: &mut fmt::Formatter<'_>) -> fmt::Result {
        f.write_str(match self {
            Shown::Link(Link::NothingToMeet) => "lists without two ticks",
            Shown::Link(Link::ByOctets) => "link condition met by octets",
            Shown::Link(Link::ByIdle) => "link condition met by idle transmits",
            Shown::Link(Link::ByBoth) => "link condition met by both",
            Shown::Link(Link::Failed) => "link condition failed",
            Shown::Purging => "ticks that purged",
            Shown::TwinsList => "lists with frames that marks alone tell apart",
            Shown::Twin => "such frames sent",
            Shown::FrameArrival => "frames that count as arrivals",
            Shown::FrameBestEffort => "frames that count as best effort",
            Shown::ControlTick => "control writes that count as ticks",
            Shown::ControlTransmit => "control writes that count as transmits",
            Shown::SentInTime => "accepted frames sent before the 4th tick",
            Shown::SentAfterThird => "of these not before the 3rd",
            Shown::SentAsCurrent => "accepted as current and sent before the 2nd tick",
            Shown::SentAsNext => "as next and before the 3rd",
            Shown::SentAsLast => "as last and before the 4th",
            Shown::SentAsRepliedLate => "of these three not before the tick before",
            Shown::Conforming => "arrivals of streams that conform to the end accepted as current",
            Shown::ConformingSent => "of these sent before the 2nd tick",
            Shown::ConformingAfterFirst => "of these not before the 1st",
            Shown::Withdrawn => "arrivals of streams that conform to their withdrawal accepted as current",
            Shown::WithdrawnSent => "of these sent before the 2nd tick",
            Shown::WithdrawnAfterFirst => "of these not before the 1st",
            Shown::BeginningList => "lists with streams that conform for a while",
            Shown::Beginning => "their arrivals until then accepted as current",
            Shown::BeginningSent => "of these sent before the 2nd tick",
            Shown::BeginningAfterFirst => "of these not before the 1st",
            Shown::Pair => "pairs of lists",
            Shown::PairApart => "pairs apart in grants",
            Shown::ArrivalCompared => "arrivals compared",
            Shown::FrameCompared => "of these a frame in one list alone",
            Shown::Withdrawal => "withdrawals",
            Shown::RefusedDraining => "refused 25",
            Shown::RefusedFree => "refused 12 after draining",
            Shown::GrantedAgain => "granted again",
            Shown::WithdrawalCompared => "withdrawals compared",
            Shown::CountCompared => "counts compared",
            Shown::CountAsked => "counts asked for",
            Shown::CountShown => "counts of the chosen stream read",
            Shown::CountOfNone => "counts of no stream read or asked for",
            Shown::DiscardsTold => "counts told of streams with discards",
            Shown::CountedAnew => "of streams that count anew",
        })
    }
}
