//! Choices of a stream, questions for a stream's counts, and what was met of the choice and of the counts of streams in a port of any content. The
//! numbers of document 02, "Counts per stream", stand here as numbers, not as the model's.

use std::fmt;

use crate::call::{Call, Reply};
use crate::comparing::coverage::{Coverage, Seen};
use crate::comparing::draining::Ending;
use crate::comparing::random::Random;
use crate::comparing::registers::{Count, Held, ACCEPTED, DISCARDED};
use crate::layout::{is_reserved, OPEN};
use crate::model::port::STREAMS;

/// The number of the last stream: "a number above 63 there makes both read zero".
pub const LAST_STREAM: u32 = 63;
/// Choices above 63, also where fewer bits would hide that, beside those that are made of a stream's number.
pub const CHOICES_ABOVE: [u32; 12] = [64, 65, 127, 128, 254, 255, 1 << 8, (1 << 8) + 63, 1 << 16, (1 << 16) + 63, (1 << 31) + 63, u32::MAX];
/// What makes a choice above 63 of a stream's number, where fewer bits would hide it.
const ADDED: [u32; 5] = [64, 128, 1 << 8, 1 << 16, 1 << 31];
/// Streams above 63, whose low six bits or all of them are an end.
pub const STREAMS_ABOVE: [u8; 7] = [64, 65, 127, 128, 191, 254, 255];

/// What can be met of the choice and of the counts of streams.
#[derive(Clone, Copy, Debug, PartialEq, Eq, PartialOrd, Ord)]
pub enum Counting {
    /// A write chooses a stream, and one a number above 63.
    Chosen,
    ChosenAbove,
    /// A read shows a count of the chosen stream that is not 0, and among these one of stream 0 and one of stream 63.
    Shown,
    ShownOfFirst,
    ShownOfLast,
    /// A read shows no count for a choice above 63, though the stream of its low six bits has one that is not 0.
    NotShown,
    /// A frame is counted for stream 0, for stream 63, and for a stream that is not chosen.
    OfFirst,
    OfLast,
    OfUnchosen,
    /// A granted withdrawal of a stream that had both counts, neither of them 0.
    Zeroed,
    /// A refused withdrawal of a stream that has a count other than 0, which it keeps.
    KeptWhenRefused,
    /// A tick that frees a stream with a count other than 0, which it keeps.
    KeptWhenFreed,
    /// A question for counts that are not both 0, and among these one for a stream that is not chosen, and one for a stream that is not reserved.
    Asked,
    AskedUnchosen,
    AskedUnreserved,
    /// A question that is granted on a closed port.
    AskedClosed,
    /// A question that is refused with 19, with 5, and with 19 though its stream is above 63.
    RefusedShort,
    RefusedAbove,
    RefusedShortAndAbove,
}

impl fmt::Display for Counting {
    fn fmt(&self, f: &mut fmt::Formatter<'_>) -> fmt::Result {
        f.write_str(match self {
            Counting::Chosen => "streams chosen",
            Counting::ChosenAbove => "numbers above 63 chosen",
            Counting::Shown => "counts shown of the chosen stream",
            Counting::ShownOfFirst => "of these stream 0",
            Counting::ShownOfLast => "of these stream 63",
            Counting::NotShown => "counts not shown for a choice above 63",
            Counting::OfFirst => "counted for stream 0",
            Counting::OfLast => "counted for stream 63",
            Counting::OfUnchosen => "counted for a stream not chosen",
            Counting::Zeroed => "counts zeroed by a withdrawal",
            Counting::KeptWhenRefused => "counts kept by a refused withdrawal",
            Counting::KeptWhenFreed => "counts kept by a tick that frees",
            Counting::Asked => "counts asked for",
            Counting::AskedUnchosen => "of these of a stream not chosen",
            Counting::AskedUnreserved => "of these of an unreserved stream",
            Counting::AskedClosed => "asked for on a closed port",
            Counting::RefusedShort => "questions refused 19",
            Counting::RefusedAbove => "questions refused 5",
            Counting::RefusedShortAndAbove => "questions refused 19 of a stream above 63",
        })
    }
}

/// A choice: most often a reserved stream, or any stream, an end, a number above 63 that fewer bits would take for a reserved stream, or any.
pub fn any_choice(random: &mut Random, record: &[u8]) -> u32 {
    let (from, any) = (random.below(STREAMS), random.number());
    let reserved = (from..STREAMS).chain(0..from).find(|&stream| is_reserved(record, stream)).unwrap_or(from) as u32;
    let (above, added) = (random.pick(&CHOICES_ABOVE), random.pick(&ADDED));
    random.pick(&[reserved, reserved, reserved, reserved, from as u32, 0, LAST_STREAM, above, reserved + added, any])
}

/// A question for the counts of a stream, an end more often; one at an edge has a stream above 63.
pub fn any_question(random: &mut Random, edge: bool) -> Call {
    let (any, above) = (random.below(STREAMS) as u8, random.pick(&STREAMS_ABOVE));
    let any_above = random.between(STREAMS as u32..=u32::from(u8::MAX)) as u8;
    let stream = if edge { random.pick(&[above, any_above]) } else { random.pick(&[0, LAST_STREAM as u8, any, any]) };
    Call::StreamCounts { stream }
}

/// Questions for the counts of both ends, of the chosen stream, of some others, and of streams that there are not.
pub fn questions(random: &mut Random, record: &[u8]) -> Vec<Call> {
    let chosen = Held::of(record).map_or(0, |held| (held.choice & LAST_STREAM) as u8);
    let some = [(); 4].map(|()| random.below(STREAMS) as u8);
    let streams = [&[0, 1, 62, 63, chosen][..], &some, &STREAMS_ABOVE].concat();
    streams.into_iter().map(|stream| Call::StreamCounts { stream }).collect()
}

/// What a write of a choice chooses.
pub fn chosen(choice: u32) -> Counting {
    if choice > LAST_STREAM {
        return Counting::ChosenAbove;
    }
    Counting::Chosen
}

impl Held {
    /// Counts what a withdrawal did to the counts of its stream, by what was held before it.
    pub fn count_withdrawal(&self, coverage: &mut Coverage, call: &Call, reply: &Reply) {
        let Call::Withdraw { stream } = *call else { return };
        if u32::from(stream) > LAST_STREAM {
            return;
        }
        let counts = self.counts_of(usize::from(stream));
        let mut count = |seen: bool, counting: Counting| coverage.add(Seen::Counting(counting), u64::from(seen));
        count(reply.refusal == 0 && !counts.contains(&0), Counting::Zeroed);
        count(reply.refusal != 0 && counts != [0, 0], Counting::KeptWhenRefused);
    }

    /// Counts the streams that a tick freed with a count other than 0, by what is held after it.
    pub fn count_freed(&self, coverage: &mut Coverage, call: &Call, reply: &Reply, ending: &[Ending]) {
        if matches!(call, Call::Open { .. }) || reply.refusal != 0 {
            return;
        }
        let kept = ending.iter().filter(|ending| self.counts_of(ending.stream) != [0, 0]).count();
        coverage.add(Seen::Counting(Counting::KeptWhenFreed), kept as u64);
    }
}

impl Coverage {
    /// Counts a change of a stream's counts, by the choice of then.
    pub fn count_counted(&mut self, stream: usize, before: [u32; 2], after: [u32; 2], choice: u32) {
        self.count_change(Count::Accepted, before[0], after[0]);
        self.count_change(Count::Discarded, before[1], after[1]);
        let mut count = |seen: bool, counting: Counting| self.add(Seen::Counting(counting), u64::from(seen));
        count(stream == 0, Counting::OfFirst);
        count(stream as u32 == LAST_STREAM, Counting::OfLast);
        count(stream as u32 != choice, Counting::OfUnchosen);
    }

    /// Counts a read of a count that was granted on a port of this content.
    pub fn count_shown(&mut self, call: &Call, reply: &Reply, port: &[u8]) {
        let (Call::ReadRegister { offset: ACCEPTED | DISCARDED }, 0, Some(held)) = (call, reply.refusal, Held::of(port)) else { return };
        let mut count = |seen: bool, counting: Counting| self.add(Seen::Counting(counting), u64::from(seen));
        let (shown, inside) = (reply.first != 0, held.choice <= LAST_STREAM);
        count(shown && inside, Counting::Shown);
        count(shown && held.choice == 0, Counting::ShownOfFirst);
        count(shown && held.choice == LAST_STREAM, Counting::ShownOfLast);
        let of_six_bits = held.counts_of((held.choice & LAST_STREAM) as usize);
        count(!inside && of_six_bits != [0, 0], Counting::NotShown);
    }

    /// Counts a question for the counts of a stream, on a port of any length and content.
    pub fn count_question(&mut self, stream: u8, reply: &Reply, port: &[u8]) {
        let mut count = |seen: bool, counting: Counting| self.add(Seen::Counting(counting), u64::from(seen));
        let (above, some) = (u32::from(stream) > LAST_STREAM, (reply.first, reply.second) != (0, 0));
        count(reply.refusal == 19, Counting::RefusedShort);
        count(reply.refusal == 5, Counting::RefusedAbove);
        count(reply.refusal == 19 && above, Counting::RefusedShortAndAbove);
        let Some(held) = Held::of(port).filter(|_| reply.refusal == 0) else { return };
        count(some, Counting::Asked);
        count(some && held.choice != u32::from(stream), Counting::AskedUnchosen);
        count(some && !is_reserved(port, usize::from(stream)), Counting::AskedUnreserved);
        count(port[OPEN] != 1, Counting::AskedClosed);
    }
}
