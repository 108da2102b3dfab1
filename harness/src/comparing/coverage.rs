//! What happened in the calls of a test, counted, so that a test fails if what it is named for did not occur often enough.

use std::collections::BTreeMap;
use std::fmt;

use crate::call::{Call, Reply};
use crate::comparing::counts::Counting;
use crate::comparing::damage::Field;
use crate::comparing::fit::is_bound;
use crate::comparing::frames::{stream_of, BESIDE_LENGTH};
use crate::comparing::lookups::Looked;
use crate::comparing::registers::{Count, Flag};
use crate::guarantee::found::Shown;
use crate::layout;
use crate::model::port::{BEST_EFFORT, BEST_EFFORT_STREAM, CURRENT, LAST, NOTHING, QUEUE_PLACES, RESERVED_QUEUES, STREAMS};
use crate::model::refusal::{BEST_EFFORT_EXCEEDED, BEST_EFFORT_FULL, DRAINING, FRAME_LENGTH, MEMORY_SHORT, PORT_CLOSED, RECORD_UNFIT};

/// One kind of thing that can happen.
#[derive(Clone, Copy, Debug, PartialEq, Eq, PartialOrd, Ord)]
pub enum Seen {
    /// A granted Open.
    Opened,
    /// A granted Reserve.
    Reserved,
    /// A granted Reserve that left nothing of the share free.
    ShareFilled,
    /// A granted Reserve after which all 64 streams are reserved.
    AllReserved,
    /// A frame that joined at a place of the three.
    JoinedAt(u8),
    /// A frame that joined at a place that is none of the three, as a quick call lets it.
    JoinedElsewhere,
    /// A frame that took all that was left at a place.
    ExactFitAt(u8),
    /// A frame that joined at a place of memory before its queue's start.
    JoinedWrapped,
    /// A frame that filled its queue.
    QueueFilled,
    /// A granted Tick.
    Ticked,
    /// A frame that a Tick purged.
    PurgedFrame,
    /// A Transmit that sent from prior.
    SentFromPrior,
    /// A Transmit that sent from current.
    SentFromCurrent,
    /// A Transmit that sent from best effort.
    SentFromBestEffort,
    /// A Transmit that found nothing to send.
    SentNothing,
    /// A frame that joined best effort.
    BestEffort,
    /// A frame that joined best effort and made W just K × (L − R).
    BestEffortAtLimit,
    /// A best-effort frame that was refused for one octet above K × (L − R).
    BestEffortOneAbove,
    /// A frame that joined best effort at a place of memory before its start.
    BestEffortWrapped,
    /// A frame that filled best effort.
    BestEffortFilled,
    /// A best-effort frame that was refused with 15 and would have been with 16.
    BestEffortFullAndAbove,
    /// A granted Reserve after which W is above K × (L − R).
    LimitBelowWaits,
    /// An envelope frame that joined one of the four queues, and one that joined best effort.
    EnvelopeJoined,
    EnvelopeBestEffort,
    /// An envelope frame that was accepted by its octets.
    EnvelopeFrame,
    /// A fit record with an envelope frame waiting in a queue.
    EnvelopeWaits,
    /// A granted Withdraw.
    Withdrawn,
    /// A call that was refused with 25, by what it asks of the draining stream.
    RefusedDraining(Asked),
    /// A stream that a Tick freed.
    Freed,
    /// One of these that was bound.
    FreedBound,
    /// A draining stream whose reservation a granted Open dropped.
    DrainingEndedByOpen,
    /// A granted Reserve of a stream that a Tick of the list freed.
    GrantedAgain,
    /// One of these with no Tick between.
    GrantedAgainAtOnce,
    /// A granted Bind.
    Bound,
    /// A granted Bind after which all 64 streams are bound.
    AllBound,
    /// A Frame that became a granted Arrive.
    FrameArrived,
    /// A Frame that became a granted Best effort.
    FrameBestEffort,
    /// A Frame that was refused with a number.
    FrameRefused(u8),
    /// A refusal with a number.
    Refused(u8),
    /// A granted read of status with the interrupt line up, and one with it down.
    LineUp,
    LineDown,
    /// A granted read of another register.
    RegisterRead,
    /// A read of a register that was refused with a number.
    ReadRefused(u8),
    /// A granted control write that ticked, that transmitted, that did both, and that did neither.
    ControlTicked,
    ControlTransmitted,
    ControlDidBoth,
    ControlDidNeither,
    /// A granted write of the flags, of the mask, and of a register that takes none; that of the choice is counted by what it chooses.
    FlagsWritten,
    MaskWritten,
    OtherRegisterWritten,
    /// A write of a register that was refused with a number.
    WriteRefused(u8),
    /// A flag that a call raised from down, and one that a call lowered from up.
    FlagSet(Flag),
    FlagCleared(Flag),
    /// A flag whose mark was neither 0 nor 1 and became 0.
    OtherMarkCleared,
    /// A count that a call made one more, and one of these that went from 4,294,967,295 to 0.
    Counted(Count),
    CountWrapped(Count),
    /// What was met of the choice and of the counts of streams.
    Counting(Counting),
    /// A lookup of a kind.
    Lookup(Looked),
    /// A write of a slice that was lent to be read, made to see that it is noticed.
    WriteNoticed,
    /// Counts, flags and interrupt line of a port that were held against what a test tracked itself.
    Tracked,
    /// What a list that is held against demand 3 showed.
    Shown(Shown),
    /// The host closed the port by writing its record.
    Closed,
    /// A record that the model calls fit.
    FitRecord,
    /// A record that the model calls unfit.
    UnfitRecord,
    /// A record of a capture that was played before, on another port.
    SharedRecord,
    /// A record of a capture on no chain.
    UnusedRecord,
    /// A port of a capture without events.
    PortWithoutEvents,
    /// An octet of a capture that was changed.
    Changed(Field),
}

impl fmt::Display for Seen {
    fn fmt(&self, f: &mut fmt::Formatter<'_>) -> fmt::Result {
        match self {
            Seen::Opened => write!(f, "opened"),
            Seen::Reserved => write!(f, "reserved"),
            Seen::ShareFilled => write!(f, "share filled"),
            Seen::AllReserved => write!(f, "all streams reserved"),
            Seen::JoinedAt(place) => write!(f, "joined at {place}"),
            Seen::JoinedElsewhere => write!(f, "joined elsewhere"),
            Seen::ExactFitAt(place) => write!(f, "exact fit at {place}"),
            Seen::JoinedWrapped => write!(f, "joined wrapped"),
            Seen::QueueFilled => write!(f, "queue filled"),
            Seen::Ticked => write!(f, "ticked"),
            Seen::PurgedFrame => write!(f, "frames purged"),
            Seen::SentFromPrior => write!(f, "sent from prior"),
            Seen::SentFromCurrent => write!(f, "sent from current"),
            Seen::SentFromBestEffort => write!(f, "sent from best effort"),
            Seen::SentNothing => write!(f, "sent nothing"),
            Seen::BestEffort => write!(f, "joined best effort"),
            Seen::BestEffortAtLimit => write!(f, "best effort at its limit"),
            Seen::BestEffortOneAbove => write!(f, "best effort one above"),
            Seen::BestEffortWrapped => write!(f, "best effort wrapped"),
            Seen::BestEffortFilled => write!(f, "best effort filled"),
            Seen::BestEffortFullAndAbove => write!(f, "best effort full and above"),
            Seen::LimitBelowWaits => write!(f, "limit fell below W"),
            Seen::EnvelopeJoined => write!(f, "envelope frames joined"),
            Seen::EnvelopeBestEffort => write!(f, "envelope frames joined best effort"),
            Seen::EnvelopeFrame => write!(f, "envelope frames by octets"),
            Seen::EnvelopeWaits => write!(f, "with envelope frames waiting"),
            Seen::Withdrawn => write!(f, "withdrawn"),
            Seen::RefusedDraining(asked) => write!(f, "{asked} of draining streams refused"),
            Seen::Freed => write!(f, "freed"),
            Seen::FreedBound => write!(f, "freed with a binding"),
            Seen::DrainingEndedByOpen => write!(f, "draining ended by an open"),
            Seen::GrantedAgain => write!(f, "granted again"),
            Seen::GrantedAgainAtOnce => write!(f, "granted again at once"),
            Seen::Bound => write!(f, "bound"),
            Seen::AllBound => write!(f, "all streams bound"),
            Seen::FrameArrived => write!(f, "frames that arrived"),
            Seen::FrameBestEffort => write!(f, "frames of best effort"),
            Seen::FrameRefused(number) => write!(f, "frames refused {number}"),
            Seen::Refused(number) => write!(f, "refused {number}"),
            Seen::LineUp => write!(f, "status read with the line up"),
            Seen::LineDown => write!(f, "status read with the line down"),
            Seen::RegisterRead => write!(f, "other registers read"),
            Seen::ReadRefused(number) => write!(f, "register reads refused {number}"),
            Seen::ControlTicked => write!(f, "ticked by control"),
            Seen::ControlTransmitted => write!(f, "transmitted by control"),
            Seen::ControlDidBoth => write!(f, "both by control"),
            Seen::ControlDidNeither => write!(f, "neither by control"),
            Seen::FlagsWritten => write!(f, "flags written"),
            Seen::MaskWritten => write!(f, "mask written"),
            Seen::OtherRegisterWritten => write!(f, "other registers written"),
            Seen::WriteRefused(number) => write!(f, "register writes refused {number}"),
            Seen::FlagSet(flag) => write!(f, "flag {flag} set"),
            Seen::FlagCleared(flag) => write!(f, "flag {flag} cleared"),
            Seen::OtherMarkCleared => write!(f, "other marks of flags cleared"),
            Seen::Counted(count) => write!(f, "{count} counted"),
            Seen::CountWrapped(count) => write!(f, "count of {count} wrapped"),
            Seen::Counting(counting) => write!(f, "{counting}"),
            Seen::Lookup(looked) => write!(f, "lookups {looked}"),
            Seen::WriteNoticed => write!(f, "writes noticed"),
            Seen::Tracked => write!(f, "registers as tracked"),
            Seen::Shown(shown) => write!(f, "{shown}"),
            Seen::Closed => write!(f, "closed by host"),
            Seen::FitRecord => write!(f, "fit"),
            Seen::UnfitRecord => write!(f, "unfit"),
            Seen::SharedRecord => write!(f, "shared records"),
            Seen::UnusedRecord => write!(f, "unused records"),
            Seen::PortWithoutEvents => write!(f, "ports without events"),
            Seen::Changed(field) => write!(f, "changed {field}"),
        }
    }
}

/// What a call that names a stream asks of it.
#[derive(Clone, Copy, Debug, PartialEq, Eq, PartialOrd, Ord)]
pub enum Asked {
    Reservation,
    Arrival,
    Binding,
    Withdrawal,
}

impl fmt::Display for Asked {
    fn fmt(&self, f: &mut fmt::Formatter<'_>) -> fmt::Result {
        f.write_str(match self {
            Asked::Reservation => "reservations",
            Asked::Arrival => "arrivals",
            Asked::Binding => "bindings",
            Asked::Withdrawal => "withdrawals",
        })
    }
}

/// The charge of a tagged frame of 1,522 octets with check sequence; IEEE 802.3 calls larger ones envelope frames.
pub const LARGEST_TAGGED: u32 = 1_542;

/// Whether a frame of a charge is an envelope frame.
pub fn is_envelope(charge: u32) -> bool {
    charge > LARGEST_TAGGED
}

/// The refusals of a Frame that becomes no other call.
const BEFORE_A_FRAME: [u8; 4] = [MEMORY_SHORT, RECORD_UNFIT, PORT_CLOSED, FRAME_LENGTH];

/// How often each kind of thing happened.
#[derive(Default)]
pub struct Coverage {
    counts: BTreeMap<Seen, u64>,
}

impl Coverage {
    /// Counts one thing.
    pub fn count(&mut self, seen: Seen) {
        self.add(seen, 1);
    }

    /// Counts so many things of one kind.
    pub fn add(&mut self, seen: Seen, times: u64) {
        if times > 0 {
            *self.counts.entry(seen).or_default() += times;
        }
    }

    /// How often a thing happened.
    pub fn times(&self, seen: Seen) -> u64 {
        self.counts.get(&seen).copied().unwrap_or_default()
    }

    /// Counts what a call did, by its reply and the record after it; `prior_waited` says whether frames waited in prior before it.
    pub fn count_call(&mut self, call: &Call, reply: &Reply, record: &[u8], prior_waited: bool) {
        match call {
            Call::Frame { octets, tag } => return self.count_frame(octets, *tag, reply, record),
            Call::Lookup { address, vid } => return self.count_lookup(address, *vid, reply, record),
            Call::StreamCounts { stream } => return self.count_question(*stream, reply, record),
            Call::BestEffort { charge, .. } => self.count_best_effort(*charge, reply, record),
            _ => (),
        }
        self.count_access(call, reply);
        self.count_shown(call, reply, record);
        if reply.refusal != 0 {
            self.count_refused_draining(call, reply);
            return self.count(Seen::Refused(reply.refusal));
        }
        match *call {
            Call::Open { .. } => self.count(Seen::Opened),
            Call::Reserve { .. } => self.count_reserve(reply, record),
            Call::Arrive { stream, charge, .. } => {
                self.add(Seen::EnvelopeJoined, u64::from(is_envelope(charge)));
                self.count_joined(usize::from(stream), reply, record);
            }
            Call::Tick => {
                self.count(Seen::Ticked);
                self.add(Seen::PurgedFrame, u64::from(reply.first));
            }
            Call::Transmit => self.count(sent(reply, prior_waited)),
            Call::BestEffort { charge, .. } => {
                self.count(Seen::BestEffort);
                self.add(Seen::EnvelopeBestEffort, u64::from(is_envelope(charge)));
            }
            Call::Bind { .. } => {
                self.count(Seen::Bound);
                self.add(Seen::AllBound, u64::from((0..STREAMS).all(|stream| is_bound(record, stream))));
            }
            Call::Withdraw { .. } => self.count(Seen::Withdrawn),
            Call::Frame { .. } => unreachable!("a Frame is counted as the call that it becomes"),
            Call::ReadRegister { .. } | Call::WriteRegister { .. } | Call::Lookup { .. } | Call::StreamCounts { .. } => (),
        }
    }

    /// Counts a call that was refused with 25 by what it asks.
    fn count_refused_draining(&mut self, call: &Call, reply: &Reply) {
        let asked = match call {
            _ if reply.refusal != DRAINING => return,
            Call::Reserve { .. } => Asked::Reservation,
            Call::Arrive { .. } => Asked::Arrival,
            Call::Bind { .. } => Asked::Binding,
            Call::Withdraw { .. } => Asked::Withdrawal,
            _ => return,
        };
        self.count(Seen::RefusedDraining(asked));
    }

    /// Counts a Frame, and the call that it becomes where it becomes one.
    fn count_frame(&mut self, octets: &[u8], tag: u32, reply: &Reply, record: &[u8]) {
        if reply.refusal != 0 {
            self.count(Seen::FrameRefused(reply.refusal));
        }
        if BEFORE_A_FRAME.contains(&reply.refusal) {
            return self.count(Seen::Refused(reply.refusal));
        }
        let charge = octets.len() as u32 + BESIDE_LENGTH;
        let (becomes, seen) = match stream_of(record, octets) {
            Some(stream) => (Call::Arrive { stream: stream as u8, charge, tag }, Seen::FrameArrived),
            None => (Call::BestEffort { charge, tag }, Seen::FrameBestEffort),
        };
        self.add(seen, u64::from(reply.refusal == 0));
        self.add(Seen::EnvelopeFrame, u64::from(reply.refusal == 0 && is_envelope(charge)));
        self.count_call(&becomes, reply, record, false);
    }

    /// Counts how near a Best effort came to its ends.
    fn count_best_effort(&mut self, charge: u32, reply: &Reply, record: &[u8]) {
        let above = |waits: u64| waits > layout::best_effort_limit(record);
        match reply.refusal {
            0 if above(layout::waits_with(record, 1)) => self.count(Seen::BestEffortAtLimit),
            BEST_EFFORT_FULL if above(layout::waits_with(record, charge)) => self.count(Seen::BestEffortFullAndAbove),
            BEST_EFFORT_EXCEEDED if !above(layout::waits_with(record, charge - 1)) => self.count(Seen::BestEffortOneAbove),
            _ => (),
        }
        if reply.refusal == 0 {
            self.count_ring(record, BEST_EFFORT, Seen::BestEffortWrapped, Seen::BestEffortFilled);
        }
    }

    /// Counts a granted Reserve.
    fn count_reserve(&mut self, reply: &Reply, record: &[u8]) {
        self.count(Seen::Reserved);
        if reply.first == 0 {
            self.count(Seen::ShareFilled);
        }
        if (0..STREAMS).all(|stream| layout::is_reserved(record, stream)) {
            self.count(Seen::AllReserved);
        }
        if layout::waits_with(record, 0) > layout::best_effort_limit(record) {
            self.count(Seen::LimitBelowWaits);
        }
    }

    /// Counts a granted Arrive.
    fn count_joined(&mut self, stream: usize, reply: &Reply, record: &[u8]) {
        let joined = reply.first as u8;
        if !(CURRENT..=LAST).contains(&joined) {
            return self.count(Seen::JoinedElsewhere);
        }
        self.count(Seen::JoinedAt(joined));
        let place = record[layout::entry(stream) + layout::PLACE];
        if place != joined || (joined == LAST && reply.second == 0) {
            self.count(Seen::ExactFitAt(joined));
        }
        let queue = (usize::from(record[layout::PRIOR]) + usize::from(joined)) % RESERVED_QUEUES;
        self.count_ring(record, queue, Seen::JoinedWrapped, Seen::QueueFilled);
    }

    /// Counts where in its queue a frame joined: before the start, or at the last place free.
    fn count_ring(&mut self, record: &[u8], queue: usize, wrapped: Seen, filled: Seen) {
        let start = layout::two(record, layout::start(queue)) as usize;
        let count = layout::two(record, layout::count(queue)) as usize;
        if start + count > QUEUE_PLACES {
            self.count(wrapped);
        }
        if count == QUEUE_PLACES {
            self.count(filled);
        }
    }
}

/// Where a granted Transmit sent from.
fn sent(reply: &Reply, prior_waited: bool) -> Seen {
    match reply.first {
        NOTHING => Seen::SentNothing,
        BEST_EFFORT_STREAM => Seen::SentFromBestEffort,
        _ if prior_waited => Seen::SentFromPrior,
        _ => Seen::SentFromCurrent,
    }
}

/// Whether frames wait in prior, by a record of any content.
pub fn prior_waits(record: &[u8]) -> bool {
    let prior = record.get(layout::PRIOR).map_or(BEST_EFFORT, |&octet| usize::from(octet));
    prior < RESERVED_QUEUES && record.len() > layout::count(prior) + 1 && layout::two(record, layout::count(prior)) > 0
}

impl fmt::Display for Coverage {
    fn fmt(&self, f: &mut fmt::Formatter<'_>) -> fmt::Result {
        let texts: Vec<String> = self.counts.iter().map(|(seen, times)| format!("{seen} {times}")).collect();
        write!(f, "{}", texts.join(", "))
    }
}
