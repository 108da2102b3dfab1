//! A test, and one run of it: its seed and size, and what it counted.

use std::fmt;
use std::path::Path;

use crate::call::{Call, Reply};
use crate::comparing::coverage::{Coverage, Seen};
use crate::comparing::random::Random;
use crate::comparing::sides::Sides;

/// The kinds of tests.
#[derive(Clone, Copy, Debug, PartialEq, Eq)]
pub enum Kind {
    Streams,
    Lists,
    Records,
    Quick,
    Frames,
    Withdrawals,
    Registers,
    Counts,
    Lookups,
    Guarantee,
    Captures,
}

/// Each kind with the word that names it on the command line.
pub const KINDS: [(&str, Kind); 11] = [
    ("streams", Kind::Streams),
    ("lists", Kind::Lists),
    ("records", Kind::Records),
    ("quick", Kind::Quick),
    ("frames", Kind::Frames),
    ("withdrawals", Kind::Withdrawals),
    ("registers", Kind::Registers),
    ("counts", Kind::Counts),
    ("lookups", Kind::Lookups),
    ("guarantee", Kind::Guarantee),
    ("captures", Kind::Captures),
];

/// A test: its kind, its name and what it does.
#[derive(Clone, Copy)]
pub struct Test {
    pub kind: Kind,
    pub name: &'static str,
    pub body: fn(&mut Run) -> Result<(), String>,
}

/// One run of a test.
pub struct Run<'a> {
    seed: u64,
    percent: usize,
    test: &'static str,
    /// How each side plays a call.
    pub sides: Sides,
    /// The proved program `replay`.
    pub replay: &'a Path,
    /// How many lists, records and captures were begun, and how many calls were compared.
    pub lists: u64,
    pub records: u64,
    pub captures: u64,
    pub calls: u64,
    /// What happened in the calls.
    pub coverage: Coverage,
    /// Where the run is, for a report.
    pub place: String,
}

impl<'a> Run<'a> {
    /// A run of a test with a seed, at so many percent of its size, with the sides and the program `replay` as given.
    pub fn new(test: &'static str, seed: u64, percent: usize, sides: Sides, replay: &'a Path) -> Run<'a> {
        let (coverage, place) = (Coverage::default(), String::new());
        Run { seed, percent, test, sides, replay, lists: 0, records: 0, captures: 0, calls: 0, coverage, place }
    }

    /// A number of lists, records or captures at the size of this run, at least one.
    pub fn scaled(&self, at_full_size: usize) -> usize {
        (at_full_size * self.percent / 100).max(1)
    }

    /// Begins the next list; its generator.
    pub fn next_list(&mut self) -> Random {
        self.lists += 1;
        self.place = format!("seed {}, list {}", self.seed, self.lists);
        Random::of(self.seed, self.test, self.lists)
    }

    /// Begins the next record; its generator.
    pub fn next_record(&mut self, what: &str) -> Random {
        self.records += 1;
        self.place = format!("seed {}, record {} ({what})", self.seed, self.records);
        Random::of(self.seed, self.test, self.records)
    }

    /// Begins the next capture; its generator.
    pub fn next_capture(&mut self, what: &str) -> Random {
        self.captures += 1;
        self.place = format!("seed {}, capture {} ({what})", self.seed, self.captures);
        Random::of(self.seed, self.test, self.captures)
    }

    /// Counts a call that was compared.
    pub fn count_call(&mut self, call: &Call, reply: &Reply, record: &[u8], prior_waited: bool) {
        self.calls += 1;
        self.coverage.count_call(call, reply, record, prior_waited);
    }

    /// Fails if a thing happened less often than is asked at full size, or than that part of it which this run's size is.
    pub fn demand(&self, demands: &[(Seen, u64)]) -> Result<(), String> {
        for &(seen, at_full_size) in demands {
            let (times, least) = (self.coverage.times(seen), (at_full_size * self.percent as u64 / 100).max(1));
            if times < least {
                return Err(format!("seed {}: too little of what the test is for: {seen} {times}, at least {least} asked", self.seed));
            }
        }
        Ok(())
    }

    /// Fails if a thing happened at all.
    pub fn demand_none(&self, seen: Seen) -> Result<(), String> {
        match self.coverage.times(seen) {
            0 => Ok(()),
            times => Err(format!("seed {}: {seen} {times} times, which can not be", self.seed)),
        }
    }
}

impl fmt::Display for Run<'_> {
    fn fmt(&self, f: &mut fmt::Formatter<'_>) -> fmt::Result {
        let counts = [(self.lists, "lists"), (self.records, "records"), (self.captures, "captures"), (self.calls, "calls")];
        let counted: Vec<String> = counts.iter().filter(|(count, _)| *count > 0).map(|(count, what)| format!("{count} {what}")).collect();
        let coverage = self.coverage.to_string();
        write!(f, "{}{}{coverage}", counted.join(", "), if coverage.is_empty() { "" } else { ": " })
    }
}
