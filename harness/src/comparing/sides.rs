//! The ways to play a call: the proved calls and quick calls, and the outside program that they are held against; and how lists are checked.

use std::fmt;

use crate::call::{Given, Reply, Stream};
use crate::guarantee::found::{Alike, Broken, Counts, Found, Numbers};
use crate::guarantee::list::Event;
use crate::guarantee::{claims, counts, pairs, taken};
use crate::{exports, in_place, model};

/// How a call is played on a lent record and memory.
pub type Play = fn(&Given, &mut [u8], &mut [u8]) -> Reply;

/// How a frame of a charge arrives on a stream that is kept by itself.
pub type Receive = fn(&mut Stream, u16) -> Reply;

/// What `replay` prints of a capture.
pub type Replay = fn(&[u8]) -> String;

/// How a list that was played is held against demand 3.
pub type Check = fn(&[Event]) -> Result<Found, Broken>;
/// How the replies of a list to calls that name a stream are held against what is taken.
pub type CheckNumbers = fn(&[Event]) -> Result<Numbers, Broken>;
/// How what a list tells of its streams' counts is held against its replies.
pub type CheckCounts = fn(&[Event]) -> Result<Counts, Broken>;
/// How two lists are held beside each other for one stream: how much of it was compared, if the lists are alike in what is its own.
pub type CheckPair = fn(&[Event], &[Event], u8) -> Result<Option<Alike>, String>;

/// One of the ways to play a call.
#[derive(Clone, Copy, Debug, PartialEq, Eq)]
pub enum Side {
    /// The proved calls.
    Exports,
    /// The proved quick calls.
    Quick,
    /// The independent model of the calls.
    Model,
    /// The quick calls' own definition in plain Rust.
    InPlace,
}

/// How each side plays a call, and how lists are checked. Another function may stand for the outside program, for what a host declares of the
/// exports, or for a checker, with a fault that was seeded in it to see the tests catch.
#[derive(Clone, Copy)]
pub struct Sides {
    pub exports: Play,
    pub quick: Play,
    /// The proved rule of one stream by itself.
    pub stream: Receive,
    pub model: Play,
    pub in_place: Play,
    /// The outside program's `replay`.
    pub replay: Replay,
    pub check: Check,
    pub numbers: CheckNumbers,
    pub counts: CheckCounts,
    pub pair: CheckPair,
}

impl Sides {
    /// The sides without a fault.
    pub const SOUND: Sides = Sides {
        exports: exports::call,
        quick: exports::unscanned,
        stream: exports::stream_arrive,
        model: model::call,
        in_place: in_place::call,
        replay: model::replay::replay,
        check: claims::check,
        numbers: taken::check,
        counts: counts::check,
        pair: pairs::check,
    };

    /// How a side plays a call.
    pub fn play(&self, side: Side) -> Play {
        match side {
            Side::Exports => self.exports,
            Side::Quick => self.quick,
            Side::Model => self.model,
            Side::InPlace => self.in_place,
        }
    }
}

impl fmt::Display for Side {
    fn fmt(&self, f: &mut fmt::Formatter<'_>) -> fmt::Result {
        f.write_str(match self {
            Side::Exports => "exports",
            Side::Quick => "quick exports",
            Side::Model => "model",
            Side::InPlace => "in place",
        })
    }
}
