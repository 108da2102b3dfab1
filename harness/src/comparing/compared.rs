//! One call on two sides: the same record and memory lent to both, and what the call gives to read; reply, every octet and what lies around them
//! compared.

use std::collections::VecDeque;
use std::fmt;

use crate::call::{Call, Given, Reply};
use crate::comparing::coverage::prior_waits;
use crate::comparing::draining::{ending, Freed};
use crate::comparing::fenced::{lend_given, lend_pair, Edge};
use crate::comparing::lent::{Lend, Lent};
use crate::comparing::registers::Held;
use crate::comparing::sides::{Play, Side};
use crate::comparing::test::Run;
use crate::layout;

/// What is done to a lent port: a call, or the host writes an octet of the record.
#[derive(Clone, Debug)]
pub enum Step {
    Call(Call),
    HostWrites { at: usize, octet: u8 },
}

impl fmt::Display for Step {
    fn fmt(&self, f: &mut fmt::Formatter<'_>) -> fmt::Result {
        match self {
            Step::Call(call) => write!(f, "{call}"),
            Step::HostWrites { at, octet } => write!(f, "host writes {octet} at record octet {at}"),
        }
    }
}

/// How many steps before a difference its report tells.
const REMEMBERED: usize = 12;

/// A side with the record and memory that are lent to it.
struct Player {
    side: Side,
    play: Play,
    record: Box<dyn Lend>,
    memory: Box<dyn Lend>,
    /// Which end of what a call gives to read lies against a fence; where none is named, guards stand around it.
    edge: Option<Edge>,
    /// Whether what the calls so far gave to read, and the octets outside it, were left alone.
    given_kept: bool,
}

impl Player {
    /// A side that gets copies with guards around them.
    fn guarded(side: Side, run: &Run, record: &[u8], memory: &[u8]) -> Player {
        let (record, memory) = (Box::new(Lent::new(record)), Box::new(Lent::new(memory)));
        Player { side, play: run.sides.play(side), record, memory, edge: None, given_kept: true }
    }

    /// A side that gets copies against fences: record, memory, and what a call gives to read.
    fn fenced(side: Side, run: &Run, record: &[u8], memory: &[u8], [of_record, of_memory, of_given]: [Edge; 3]) -> Player {
        let (record, memory) = lend_pair(record, memory, [of_record, of_memory]);
        let (record, memory) = (Box::new(record), Box::new(memory));
        Player { side, play: run.sides.play(side), record, memory, edge: Some(of_given), given_kept: true }
    }

    /// Plays a call on what was lent.
    fn play(&mut self, call: &Call) -> Reply {
        let Some(octets) = to_read(call) else {
            return (self.play)(&call.given(), self.record.octets_mut(), self.memory.octets_mut());
        };
        let given: Box<dyn Lend> = match self.edge {
            Some(edge) => Box::new(lend_given(octets, edge)),
            None => Box::new(Lent::new(octets)),
        };
        let reply = (self.play)(&giving(call, given.octets()), self.record.octets_mut(), self.memory.octets_mut());
        self.given_kept = self.given_kept && given.outside_kept() && given.octets() == octets;
        reply
    }

    /// Whether nothing outside the lent slices was touched, and nothing written of what was lent to be read.
    fn outside_kept(&self) -> bool {
        self.record.outside_kept() && self.memory.outside_kept() && self.given_kept
    }
}

/// What a call gives the port to read: an address, or the octets of a frame.
fn to_read(call: &Call) -> Option<&[u8]> {
    match call {
        Call::Bind { address, .. } | Call::Lookup { address, .. } => Some(address),
        Call::Frame { octets, .. } => Some(octets),
        _ => None,
    }
}

/// The call with its address or octets lent from elsewhere.
fn giving<'a>(call: &'a Call, octets: &'a [u8]) -> Given<'a> {
    let address = || octets.try_into().expect("an address has six octets");
    match *call {
        Call::Bind { stream, vid, .. } => Call::Bind { stream, address: address(), vid },
        Call::Lookup { vid, .. } => Call::Lookup { address: address(), vid },
        Call::Frame { tag, .. } => Call::Frame { octets, tag },
        _ => call.given(),
    }
}

/// Two sides, each with its own copy of the same record and memory.
pub struct Compared {
    players: [Player; 2],
    place: String,
    calls: usize,
    steps: VecDeque<Step>,
    freed: Freed,
}

impl Compared {
    /// Two sides that get copies with guards around them.
    pub fn guarded(sides: [Side; 2], run: &Run, record: &[u8], memory: &[u8]) -> Compared {
        Compared::of(sides.map(|side| Player::guarded(side, run, record, memory)), run)
    }

    /// One side twice: against fences, and with guards.
    pub fn fenced(side: Side, run: &Run, record: &[u8], memory: &[u8], edges: [Edge; 3]) -> Compared {
        Compared::of([Player::fenced(side, run, record, memory, edges), Player::guarded(side, run, record, memory)], run)
    }

    /// Two players at the start of a list or record.
    fn of(players: [Player; 2], run: &Run) -> Compared {
        Compared { players, place: run.place.clone(), calls: 0, steps: VecDeque::new(), freed: Freed::default() }
    }

    /// The record as the calls so far left it.
    pub fn record(&self) -> &[u8] {
        self.players[0].record.octets()
    }

    /// The memory as the calls so far left it.
    pub fn memory(&self) -> &[u8] {
        self.players[0].memory.octets()
    }

    /// Lends other octets of the same lengths to both sides.
    pub fn lend_again(&mut self, record: &[u8], memory: &[u8]) {
        self.steps.clear();
        self.freed = Freed::default();
        for player in &mut self.players {
            player.record.octets_mut().copy_from_slice(record);
            player.memory.octets_mut().copy_from_slice(memory);
        }
    }

    /// The host writes an octet of both records.
    pub fn host_writes(&mut self, at: usize, octet: u8) {
        self.remember(Step::HostWrites { at, octet });
        for player in &mut self.players {
            player.record.octets_mut()[at] = octet;
        }
    }

    /// Plays a call on both sides; the reply, or a report of how they differ.
    pub fn call(&mut self, run: &mut Run, call: &Call) -> Result<Reply, String> {
        let (prior_waited, ending) = (prior_waits(self.record()), ending(call, self.record()));
        let held = Held::of(self.record());
        let [one, other] = &mut self.players;
        let replies = [one.play(call), other.play(call)];
        self.calls += 1;
        if let Some(difference) = self.difference(&replies) {
            return Err(self.report(call, &replies, &difference));
        }
        self.remember(Step::Call(call.clone()));
        run.count_call(call, &replies[0], self.record(), prior_waited);
        self.freed.follow(&mut run.coverage, call, &replies[0], &ending);
        if let (Some(before), Some(after)) = (held, Held::of(self.record())) {
            before.count_changes(&mut run.coverage, call, &after);
            before.count_withdrawal(&mut run.coverage, call, &replies[0]);
            after.count_freed(&mut run.coverage, call, &replies[0], &ending);
        }
        Ok(replies[0])
    }

    /// Plays a call on both sides, which must reply as expected.
    pub fn expect(&mut self, run: &mut Run, call: &Call, expected: impl Fn(&Reply) -> bool, words: &str) -> Result<(), String> {
        let reply = self.call(run, call)?;
        if expected(&reply) {
            return Ok(());
        }
        Err(format!("{}, call {}: {call}: both reply {reply}; expected {words}", self.place, self.calls))
    }

    /// Keeps a step for a report.
    fn remember(&mut self, step: Step) {
        if self.steps.len() == REMEMBERED {
            self.steps.pop_front();
        }
        self.steps.push_back(step);
    }

    /// How the two sides differ, if they do.
    fn difference(&self, replies: &[Reply; 2]) -> Option<String> {
        let [one, other] = &self.players;
        if let Some(player) = self.players.iter().find(|player| !player.outside_kept()) {
            return Some(format!("{} touched octets outside a lent slice, or wrote what it was given to read", player.side));
        }
        if let Some(at) = first_difference(one.record.octets(), other.record.octets()) {
            return Some(self.octets_differ("record", at, layout::record_field(at), one.record.octets(), other.record.octets()));
        }
        if let Some(at) = first_difference(one.memory.octets(), other.memory.octets()) {
            return Some(self.octets_differ("memory", at, layout::memory_field(at), one.memory.octets(), other.memory.octets()));
        }
        (replies[0] != replies[1]).then(|| "the replies alone differ".into())
    }

    /// Says what each side holds at an octet.
    fn octets_differ(&self, slice: &str, at: usize, field: String, one: &[u8], other: &[u8]) -> String {
        let [first, second] = self.sides();
        format!("{slice} octet {at}: {field}: {first} {}, {second} {}", one[at], other[at])
    }

    /// The two sides.
    fn sides(&self) -> [Side; 2] {
        [self.players[0].side, self.players[1].side]
    }

    /// All that a person needs to see the difference again.
    fn report(&self, call: &Call, replies: &[Reply; 2], difference: &str) -> String {
        let [one, other] = self.sides();
        let before: Vec<String> = self.steps.iter().map(Step::to_string).collect();
        format!(
            "{}, call {}: {call}\n    {one} replies {}, {other} replies {}\n    {difference}\n    steps before: {}",
            self.place,
            self.calls,
            replies[0],
            replies[1],
            if before.is_empty() { "none".into() } else { before.join("; ") }
        )
    }
}

/// The first place where two slices of one length differ.
fn first_difference(one: &[u8], other: &[u8]) -> Option<usize> {
    if one == other {
        return None;
    }
    one.iter().zip(other).position(|(one, other)| one != other)
}
