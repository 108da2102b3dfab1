//! The counts of each stream held against the replies of a list, from its events alone: document 02, "Counts per stream", "They equal the number of
//! such replies since the latest opening or granted withdrawal, taken modulo 4,294,967,296", as offsets 16 and 20 show them of the stream that offset
//! 28 chooses, and as the question for a stream's counts replies them. The numbers of document 02 stand here as numbers, not as the model's.

use crate::call::{Call, Reply};
use crate::guarantee::becoming;
use crate::guarantee::found::{Broken, Counts};
use crate::guarantee::list::Event;

/// "Offsets 16 and 20 show the counts of the stream chosen".
const ACCEPTED: u32 = 16;
const DISCARDED: u32 = 20;
/// "a new register at offset 28 (0 at opening, kept as written)".
const CHOICE: u32 = 28;
/// "a number above 63 there makes both read zero".
const LAST_STREAM: u8 = 63;
/// "discards (14)".
const DISCARD: u8 = 14;
/// "5 stream above 63".
const STREAM_ABOVE: u8 = 5;
/// "taken modulo 4,294,967,296".
const MODULUS: u64 = 4_294_967_296;

/// Which of the two counts of a stream.
#[derive(Clone, Copy, Debug, PartialEq, Eq, Hash)]
pub enum Count {
    Accepted,
    Discarded,
}

/// How many of a stream's arrivals were accepted and how many discarded since the opening or its latest granted withdrawal, and whether a withdrawal
/// came after such replies.
#[derive(Clone, Copy, Default)]
struct Replies {
    accepted: u64,
    discarded: u64,
    counted_anew: bool,
}

/// What a list has counted so far, and what it chose.
struct Counted {
    choice: u32,
    streams: [Replies; LAST_STREAM as usize + 1],
}

impl Replies {
    /// What a question for the counts replies.
    fn reply(&self) -> Reply {
        Reply::granted((self.accepted % MODULUS) as u32, (self.discarded % MODULUS) as u32)
    }
}

impl Counted {
    /// Nothing counted, and stream 0 chosen, as at an opening.
    fn nothing() -> Counted {
        Counted { choice: 0, streams: [Replies::default(); LAST_STREAM as usize + 1] }
    }

    /// The stream that is chosen, where one is.
    fn chosen(&self) -> Option<&Replies> {
        usize::try_from(self.choice).ok().and_then(|choice| self.streams.get(choice))
    }

    /// What is due to a call that tells counts, or the choice.
    fn due(&self, call: &Call) -> Option<Reply> {
        let shown = self.chosen().map_or(Reply::granted(0, 0), Replies::reply);
        match *call {
            Call::StreamCounts { stream } => {
                let replies = self.streams.get(usize::from(stream));
                Some(replies.map_or(Reply::refused(STREAM_ABOVE), Replies::reply))
            }
            Call::ReadRegister { offset: ACCEPTED } => Some(Reply::granted(shown.first, 0)),
            Call::ReadRegister { offset: DISCARDED } => Some(Reply::granted(shown.second, 0)),
            Call::ReadRegister { offset: CHOICE } => Some(Reply::granted(self.choice, 0)),
            _ => None,
        }
    }

    /// Follows a call by what it counts as and its reply: "the number of such replies" to arrivals, "since the latest opening or granted withdrawal".
    fn follow(&mut self, call: &Call, reply: &Reply) {
        match (call, reply.refusal) {
            (Call::Open { .. }, 0) => *self = Counted::nothing(),
            (Call::Arrive { stream, .. }, 0) => self.of(*stream).accepted += 1,
            (Call::Arrive { stream, .. }, DISCARD) => self.of(*stream).discarded += 1,
            (Call::Withdraw { stream }, 0) => {
                let replies = self.of(*stream);
                let counted_anew = replies.counted_anew || replies.accepted + replies.discarded > 0;
                *replies = Replies { counted_anew, ..Replies::default() };
            }
            (Call::WriteRegister { offset: CHOICE, value }, 0) => self.choice = *value,
            _ => (),
        }
    }

    /// The replies to a stream's arrivals; a call on a stream above 63 is neither granted nor a discard.
    fn of(&mut self, stream: u8) -> &mut Replies {
        &mut self.streams[usize::from(stream)]
    }

    /// Counts a call that tells what is due.
    fn found(&self, call: &Call, found: &mut Counts) {
        let told = match *call {
            Call::StreamCounts { stream } => self.streams.get(usize::from(stream)),
            Call::ReadRegister { offset: ACCEPTED | DISCARDED } => self.chosen(),
            _ => return,
        };
        let Some(replies) = told else {
            found.above += 1;
            return;
        };
        let by_choice = matches!(call, Call::ReadRegister { .. });
        let is_told = replies.accepted + replies.discarded > 0;
        found.asked += u64::from(is_told && !by_choice);
        found.shown += u64::from(is_told && by_choice);
        found.discards += u64::from(replies.discarded > 0);
        found.anew += u64::from(is_told && replies.counted_anew);
    }
}

/// Holds what a list tells of its streams' counts against its own replies: what was found, or how the list breaks it.
pub fn check(events: &[Event]) -> Result<Counts, Broken> {
    let (mut counted, mut found) = (Counted::nothing(), Counts::default());
    for (number, (event, call)) in events.iter().zip(becoming::counted(events)).enumerate() {
        let reply = event.reply;
        match counted.due(&event.call) {
            Some(due) if due != reply => {
                return Err(Broken { call: number, words: format!("it replies {reply}, and by the replies counted {due}") });
            }
            _ => counted.found(&event.call, &mut found),
        }
        counted.follow(&call, &reply);
    }
    Ok(found)
}

/// A count of a stream as a call of a list tells it.
#[derive(Clone, Copy, Debug, PartialEq, Eq)]
pub struct Told {
    pub number: usize,
    pub count: Count,
    pub value: u32,
}

/// What a list tells of one stream's counts: by a question for them both, and while the stream is chosen by a read of 16 or 20 one.
pub fn told(events: &[Event], named: u8) -> Vec<Told> {
    let (mut choice, mut all) = (0, Vec::new());
    for (number, Event { call, reply, .. }) in events.iter().enumerate().filter(|(_, event)| event.reply.refusal == 0) {
        let mut tells = |count: Count, value: u32| all.push(Told { number, count, value });
        match *call {
            Call::Open { .. } => choice = 0,
            Call::WriteRegister { offset: CHOICE, value } => choice = value,
            Call::StreamCounts { stream } if stream == named => {
                tells(Count::Accepted, reply.first);
                tells(Count::Discarded, reply.second);
            }
            Call::ReadRegister { offset: ACCEPTED } if choice == u32::from(named) => tells(Count::Accepted, reply.first),
            Call::ReadRegister { offset: DISCARDED } if choice == u32::from(named) => tells(Count::Discarded, reply.first),
            _ => (),
        }
    }
    all
}
