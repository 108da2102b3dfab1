//! One list held against demand 3, and against three claims that say more, from its events alone: a frame is sent as early as the queue of its reply
//! promises, a stream's frames are current for as long as it offers no more than P, and 17 is the reply to just the frames outside their range.
//! The numbers of documents 01 and 02 stand here and in `ranges` as numbers, not as the model's.

use std::collections::HashMap;
use std::ops::RangeInclusive;

use crate::call::{Call, Reply};
use crate::guarantee::becoming;
use crate::guarantee::found::{Broken, Found, Link, Prompt};
use crate::guarantee::list::Event;
use crate::guarantee::ranges::{share, CHARGES};
use crate::layout;

/// "255 best effort, 254 nothing", in the place of a stream.
const BEST_EFFORT: u32 = 255;
const NOTHING: u32 = 254;
/// "as current" is a reply "whose first number is 1".
const AS_CURRENT: u32 = 1;
/// "queue joined (1 current, 2 next, 3 last)".
const QUEUES_JOINED: RangeInclusive<u32> = 1..=3;
/// Why a frame is to be current and sent soon, in the words of a report.
const CONFORMED: &str = "though its stream had not offered more than P up to it";
/// The refusals that no list from an opening meets.
const NEVER_MET: [u8; 3] = [18, 19, 20];
/// "No tick purges" means that every tick is granted and replies two zeros.
const PURGES_NOTHING: Reply = Reply::granted(0, 0);

/// A list with what its events say of ticks and frames.
struct Told<'a> {
    events: &'a [Event],
    /// What each call counts as: the call that a Frame becomes, or itself.
    calls: Vec<Call>,
    share: u32,
    /// The numbers of the ticks.
    ticks: Vec<usize>,
    /// For each call the number of the call whose frame it sends.
    sends: Vec<Option<usize>>,
    /// For each call the number of the Transmit that sends its frame.
    sent_at: Vec<Option<usize>>,
}

/// What is claimed of every list: what was found in this one, or how it breaks the claim.
pub fn check(events: &[Event]) -> Result<Found, Broken> {
    let told = Told::of(events)?;
    let mut found = Found::with(told.link());
    found.purging = told.ticks.iter().filter(|&&tick| events[tick].reply != PURGES_NOTHING).count() as u64;
    found.twins = told.twins();
    [found.frame_arrivals, found.frame_best_efforts] = told.frames();
    [found.control_ticks, found.control_transmits] = told.control_writes();
    if found.link != Link::Failed {
        told.no_tick_purges()?;
        told.accepted_are_sent(&mut found)?;
        told.conforming_are_current(&mut found)?;
        told.accepted_are_sent_as_replied(&mut found)?;
    }
    Ok(found)
}

/// Fails with words about a call.
fn broken<T>(call: usize, words: &str) -> Result<T, Broken> {
    Err(Broken { call, words: words.into() })
}

/// The call whose frame a call sends, by the marked play; the other play's reply is that frame's stream and tag, and its record is the same.
fn frame_sent(events: &[Event], calls: &[Call], number: usize) -> Result<Option<usize>, Broken> {
    let Event { reply, marked, apart, .. } = events[number];
    if NEVER_MET.contains(&reply.refusal) {
        return broken(number, "a refusal that no list from an opening meets");
    }
    if becoming::makes_both(&events[number].call) {
        return broken(number, "a control write with both bits, of which the reply does not say what the tick replied");
    }
    if becoming::is_judged_wrongly(&events[number]) {
        return broken(number, &format!("it replies {reply}, and 17 is for frames outside their range of lengths alone"));
    }
    if let Some(octet) = apart {
        return broken(number, &format!("octet {octet} of the record, {}, is another where tags are", layout::record_field(octet)));
    }
    if calls[number] != Call::Transmit || reply.refusal != 0 || reply.first == NOTHING {
        return if reply == marked { Ok(None) } else { broken(number, "the reply is another where tags are") };
    }
    let frame = marked.second as usize;
    if frame >= number || events[frame].reply.refusal != 0 {
        return broken(number, "it sends what no call before it brought and was granted");
    }
    let (stream, tag) = match calls[frame] {
        Call::Arrive { stream, tag, .. } => (u32::from(stream), tag),
        Call::BestEffort { tag, .. } => (BEST_EFFORT, tag),
        _ => return broken(number, "it sends the frame of a call that brings none"),
    };
    match reply == Reply::granted(stream, tag) && marked == Reply::granted(stream, marked.second) {
        true => Ok(Some(frame)),
        false => broken(number, &format!("it sends the frame of call {frame} and replies another stream or tag")),
    }
}

impl<'a> Told<'a> {
    /// Reads a list; every frame that is sent is an accepted one, and none is sent twice.
    fn of(events: &'a [Event]) -> Result<Told<'a>, Broken> {
        let Some(Event { call: Call::Open { link, .. }, reply: Reply { refusal: 0, .. }, .. }) = events.first() else {
            return broken(0, "it is no granted Open");
        };
        let (calls, numbers) = (becoming::counted(events), 0..events.len());
        let ticks = numbers.clone().filter(|&number| calls[number] == Call::Tick).collect();
        let sends: Vec<Option<usize>> = numbers.map(|number| frame_sent(events, &calls, number)).collect::<Result<_, _>>()?;
        let mut sent_at = vec![None; events.len()];
        for (number, frame) in sends.iter().enumerate() {
            let Some(frame) = *frame else { continue };
            if sent_at[frame].replace(number).is_some() {
                return broken(number, &format!("it sends the frame of call {frame} again"));
            }
        }
        Ok(Told { events, calls, share: share(*link), ticks, sends, sent_at })
    }

    /// Whether a call brought a reserved frame that was accepted.
    fn is_accepted(&self, number: usize) -> bool {
        matches!(self.calls[number], Call::Arrive { .. }) && self.events[number].reply.refusal == 0
    }

    /// The accepted reserved frames.
    fn accepted(&self) -> impl Iterator<Item = usize> + '_ {
        (0..self.events.len()).filter(|&number| self.is_accepted(number))
    }

    /// How many Frames count as an Arrive, and how many as a Best effort.
    fn frames(&self) -> [u64; 2] {
        let frames = self.events.iter().zip(&self.calls).filter(|(event, _)| matches!(event.call, Call::Frame { .. }));
        let arrivals = frames.clone().filter(|(_, call)| matches!(call, Call::Arrive { .. })).count();
        let best_efforts = frames.filter(|(_, call)| matches!(call, Call::BestEffort { .. })).count();
        [arrivals as u64, best_efforts as u64]
    }

    /// How many control writes count as a Tick, and how many as a Transmit.
    fn control_writes(&self) -> [u64; 2] {
        let writes = self.events.iter().zip(&self.calls).filter(|(event, _)| matches!(event.call, Call::WriteRegister { .. }));
        [Call::Tick, Call::Transmit].map(|made| writes.clone().filter(|(_, call)| **call == made).count() as u64)
    }

    /// The charge of the reserved frame, one "that an Arrive brought", that a call sends.
    fn reserved_sent(&self, number: usize) -> Option<u32> {
        match self.calls[self.sends[number]?] {
            Call::Arrive { charge, .. } => Some(charge),
            _ => None,
        }
    }

    /// The link condition: "between any two consecutive ticks the reserved octets sent are at least the port's share or some transmit sends no
    /// reserved frame".
    fn link(&self) -> Link {
        let (mut by_octets, mut by_idle) = (false, false);
        for between in self.ticks.windows(2) {
            let transmits = (between[0]..between[1]).filter(|&number| self.calls[number] == Call::Transmit);
            let sent: Vec<Option<u32>> = transmits.map(|number| self.reserved_sent(number)).collect();
            let enough = sent.iter().flatten().sum::<u32>() >= self.share;
            let idle = sent.contains(&None);
            if !enough && !idle {
                return Link::Failed;
            }
            by_octets |= enough;
            by_idle |= idle;
        }
        match (by_octets, by_idle) {
            (false, false) => Link::NothingToMeet,
            (true, false) => Link::ByOctets,
            (false, true) => Link::ByIdle,
            (true, true) => Link::ByBoth,
        }
    }

    /// How many reserved frames were sent while another waited that differs from them in nothing but its mark, and was sent later.
    fn twins(&self) -> u64 {
        let mut sent: HashMap<Call, Vec<(usize, usize)>> = HashMap::new();
        for (transmit, frame) in self.sends.iter().enumerate().rev() {
            let Some(frame) = frame.filter(|&frame| self.is_accepted(frame)) else { continue };
            sent.entry(self.calls[frame].clone()).or_default().push((transmit, frame));
        }
        sent.values().map(|sent| sent_beside_another(sent)).sum()
    }

    /// The number of the tick that is so many ticks after a call, where the list reaches it.
    fn tick_after(&self, number: usize, ticks: usize) -> Option<usize> {
        let before = self.ticks.partition_point(|&tick| tick < number);
        self.ticks.get(before + ticks - 1).copied()
    }

    /// Whether the frame of a call is sent before the tick so many ticks after it; nothing where the list does not reach that tick.
    fn sent_before(&self, number: usize, ticks: usize) -> Option<bool> {
        let tick = self.tick_after(number, ticks)?;
        Some(self.sent_at[number].is_some_and(|transmit| transmit < tick))
    }

    /// "Then no tick purges a frame".
    fn no_tick_purges(&self) -> Result<(), Broken> {
        match self.ticks.iter().find(|&&tick| self.events[tick].reply != PURGES_NOTHING) {
            Some(&tick) => broken(tick, &format!("a tick replies {} though the link condition holds", self.events[tick].reply)),
            None => Ok(()),
        }
    }

    /// "every accepted reserved frame is sent before the fourth tick after it".
    fn accepted_are_sent(&self, found: &mut Found) -> Result<(), Broken> {
        for number in self.accepted() {
            match self.sent_before(number, 4) {
                Some(true) => found.sent_in_time += 1,
                Some(false) => return broken(number, "its frame is not sent before the fourth tick after it"),
                None => continue,
            }
            found.sent_after_third += u64::from(self.sent_before(number, 3) == Some(false));
        }
        Ok(())
    }

    /// Beyond the demand: each accepted frame is sent as early as the queue of its reply promises.
    fn accepted_are_sent_as_replied(&self, found: &mut Found) -> Result<(), Broken> {
        self.accepted().try_for_each(|number| self.sent_as_replied(number, found))
    }

    /// An accepted frame whose reply says queue k is sent before tick k + 1 after it.
    fn sent_as_replied(&self, number: usize, found: &mut Found) -> Result<(), Broken> {
        let queue = self.events[number].reply.first;
        if !QUEUES_JOINED.contains(&queue) {
            return broken(number, &format!("it replies queue {queue}, which no arrival joins"));
        }
        let waits = queue as usize;
        match self.sent_before(number, waits + 1) {
            Some(true) => found.sent_as_replied[waits - 1] += 1,
            Some(false) => {
                return broken(number, &format!("its frame joined queue {queue}, and is not sent before tick {} after it", waits + 1))
            }
            None => return Ok(()),
        }
        found.sent_as_replied_late += u64::from(self.sent_before(number, waits) == Some(false));
        Ok(())
    }

    /// "a stream that never offers more than its permitted octets between ticks has each frame accepted as current and sent before the second
    /// tick after it", from a grant to the withdrawal; so has every stream for as long as its offers are no more than that.
    fn conforming_are_current(&self, found: &mut Found) -> Result<(), Broken> {
        for (grant, event) in self.events.iter().enumerate() {
            let (Call::Reserve { stream, permitted }, 0) = (&event.call, event.reply.refusal) else { continue };
            let withdrawal = self.withdrawal(*stream, grant);
            let offers = self.offers(*stream, grant, withdrawal.unwrap_or(self.events.len()));
            let within = self.within(&offers, *permitted);
            let counts = match (within == offers.len(), withdrawal) {
                (true, None) => &mut found.conforming,
                (true, Some(_)) => &mut found.withdrawn,
                (false, _) => &mut found.beginning,
            };
            for (number, _) in &offers[..within] {
                self.current_and_sent(*number, counts)?;
            }
        }
        Ok(())
    }

    /// The number of the granted Withdraw of a stream after its grant, where there is one: "each frame" runs "from a grant to the withdrawal".
    fn withdrawal(&self, named: u8, grant: usize) -> Option<usize> {
        let is_own = |number: &usize| self.calls[*number] == Call::Withdraw { stream: named } && self.events[*number].reply.refusal == 0;
        (grant..self.events.len()).find(is_own)
    }

    /// A stream's offers: "each arrival of a charge from 84 to 2,020 after its grant", before its withdrawal or the end, with its charge.
    fn offers(&self, named: u8, grant: usize, end: usize) -> Vec<(usize, u32)> {
        let offer = |number: usize| match self.calls[number] {
            Call::Arrive { stream, charge, .. } if stream == named && CHARGES.contains(&charge) => Some((number, charge)),
            _ => None,
        };
        (grant..end).filter_map(offer).collect()
    }

    /// How many of the offers come before the first that makes them more than P in a stretch without a tick, "also before the first tick and
    /// after the last".
    fn within(&self, offers: &[(usize, u32)], permitted: u32) -> usize {
        let (mut stretch, mut offered) = (0, 0);
        let breaks = |&(number, charge): &(usize, u32)| {
            let ticks = self.ticks.partition_point(|&tick| tick < number);
            offered = u64::from(charge) + if ticks == stretch { offered } else { 0 };
            stretch = ticks;
            offered > u64::from(permitted)
        };
        offers.iter().position(breaks).unwrap_or(offers.len())
    }

    /// The frame of an arrival up to which its stream conforms is accepted as current, and sent before the second tick after it.
    fn current_and_sent(&self, number: usize, counts: &mut Prompt) -> Result<(), Broken> {
        let reply = self.events[number].reply;
        if (reply.refusal, reply.first) != (0, AS_CURRENT) {
            return broken(number, &format!("it replies {reply}, {CONFORMED}"));
        }
        counts.current += 1;
        match self.sent_before(number, 2) {
            Some(true) => counts.sent += 1,
            Some(false) => return broken(number, &format!("its frame is not sent before the second tick after it, {CONFORMED}")),
            None => return Ok(()),
        }
        counts.after_first += u64::from(self.sent_before(number, 1) == Some(false));
        Ok(())
    }
}

/// How many of some frames, each with the call that sent it and the call that brought it, the last sent first, were sent while another waited.
fn sent_beside_another(sent: &[(usize, usize)]) -> u64 {
    let mut earliest = usize::MAX;
    let mut count = 0;
    for &(transmit, frame) in sent {
        count += u64::from(earliest < transmit);
        earliest = earliest.min(frame);
    }
    count
}
