//! The seeded captures, in groups: each group has a generator of its own, and is about one part of documents 01 and 02. They are frozen: a capture is what
//! its group, its seed and its variant make it, and its checksum stands in conformance/sums. Of the comparing tests they use the random numbers and
//! nothing else; a change of those would be seen by the sums.

use crate::call::Call;
use crate::capture::file;
use crate::comparing::random::Random;

mod after_large;
mod best_effort;
mod chains;
mod damaged;
mod discards;
mod drains;
mod envelope_frames;
mod envelope_openings;
mod fits;
mod mixed;
pub mod numbers;
mod phases;
mod played;
mod ports;
mod purges;
mod ranges;
mod refusals;
mod reservations;
mod rings;
mod streams;
mod transmits;
mod withdraw_files;
mod withdraw_refusals;
mod withdrawals;
mod without_events;

/// The seed that all random numbers of the set begin from.
const SEED: u64 = 1;

/// A group: its name, what it is about, how many seeds it has, and how many captures are made of each seed.
pub struct Group {
    pub name: &'static str,
    pub about: &'static str,
    seeds: usize,
    variants: usize,
    make: fn(&mut Random, usize) -> Vec<u8>,
}

/// Every group, in the order in which they are run.
pub const GROUPS: [Group; 22] = [
    Group {
        name: "phases",
        about: "the same traffic with the tick at every phase",
        seeds: 20,
        variants: phases::PHASES,
        make: |random, phase| on_port_0(&phases::events(random, phase)),
    },
    Group {
        name: "fits",
        about: "exact fits and one octet beside them at current, next and last; P and one octet above it",
        seeds: 160,
        variants: 1,
        make: |random, _| on_port_0(&fits::events(random)),
    },
    Group {
        name: "discards",
        about: "discards of every sort, the same ones with none to four ticks after each",
        seeds: 24,
        variants: discards::TICKS,
        make: |random, ticks| on_port_0(&discards::events(random, ticks)),
    },
    Group {
        name: "after_large",
        about: "small frames after a large one that did not fit",
        seeds: 120,
        variants: 1,
        make: |random, _| on_port_0(&after_large::events(random)),
    },
    Group {
        name: "streams",
        about: "2 to 64 streams at once, the share full",
        seeds: 120,
        variants: 1,
        make: |random, _| on_port_0(&streams::events(random)),
    },
    Group {
        name: "transmits",
        about: "which frame is sent while frames wait in several queues, and transmits with nothing to send",
        seeds: 100,
        variants: 1,
        make: |random, _| on_port_0(&transmits::events(random)),
    },
    Group {
        name: "purges",
        about: "ticks that purge what waits in prior",
        seeds: 100,
        variants: 1,
        make: |random, _| on_port_0(&purges::events(random)),
    },
    Group {
        name: "best_effort",
        about: "best effort at its limit and one octet above, with each K from 1 to 16",
        seeds: 12,
        variants: best_effort::DELAY_COUNT,
        make: |random, delay| on_port_0(&best_effort::events(random, delay)),
    },
    Group {
        name: "reservations",
        about: "reservations after traffic, up to the share and one octet past it",
        seeds: 120,
        variants: 1,
        make: |random, _| on_port_0(&reservations::events(random)),
    },
    Group {
        name: "rings",
        about: "queues of 256 frames, and best effort that goes round its 256 places",
        seeds: 10,
        variants: rings::SORTS,
        make: |random, sort| on_port_0(&rings::events(random, sort)),
    },
    Group {
        name: "ranges",
        about: "every number at the ends of its range and one outside them",
        seeds: 100,
        variants: 1,
        make: |random, _| on_port_0(&ranges::events(random)),
    },
    Group {
        name: "refusals",
        about: "calls of which several things are wrong, so that the order of the checks decides",
        seeds: 120,
        variants: 1,
        make: |random, _| on_port_0(&refusals::events(random)),
    },
    Group {
        name: "mixed",
        about: "long runs of everything over many epochs",
        seeds: 120,
        variants: 1,
        make: |random, _| on_port_0(&mixed::long_run(random)),
    },
    Group {
        name: "ports",
        about: "several ports, chains among each other, shared records, records on no chain, long files",
        seeds: 16,
        variants: ports::LAYOUTS,
        make: ports::capture,
    },
    Group {
        name: "damaged",
        about: "files that are refused with 21 to 24, and the order of these checks",
        seeds: 6,
        variants: damaged::WAYS,
        make: damaged::capture,
    },
    Group {
        name: "without_events",
        about: "files in which no port has events",
        seeds: 20,
        variants: 1,
        make: |random, _| without_events::capture(random),
    },
    Group {
        name: "withdrawals",
        about: "a stream that is withdrawn, the same questions after none to five ticks, and its number granted again",
        seeds: 24,
        variants: withdrawals::TICKS,
        make: |random, ticks| on_port_0(&withdrawals::events(random, ticks)),
    },
    Group {
        name: "drains",
        about: "streams withdrawn in any epoch while their frames wait, and numbers and share granted again",
        seeds: 120,
        variants: 1,
        make: |random, _| on_port_0(&drains::events(random)),
    },
    Group {
        name: "withdraw_refusals",
        about: "calls of draining streams of which other things are wrong too, so that the order of the checks decides",
        seeds: 80,
        variants: 1,
        make: |random, _| on_port_0(&withdraw_refusals::events(random)),
    },
    Group {
        name: "withdraw_files",
        about: "files with records of kind 7 on several ports, good ones and such that are refused",
        seeds: 6,
        variants: withdraw_files::WAYS,
        make: withdraw_files::capture,
    },
    Group {
        name: "envelope_frames",
        about: "frames of 1,517 to 1,997 octets at each place and as best effort, among small ones",
        seeds: 80,
        variants: 1,
        make: |random, _| on_port_0(&envelope_frames::events(random)),
    },
    Group {
        name: "envelope_openings",
        about: "L at and about both ends of its range, and what follows from its share",
        seeds: 4,
        variants: envelope_openings::PARTS,
        make: envelope_openings::capture,
    },
];

impl Group {
    /// How many captures the group has.
    pub fn captures(&self) -> usize {
        self.seeds * self.variants
    }

    /// The name of its capture of a number, from 1.
    pub fn capture_name(&self, number: usize) -> String {
        format!("{}-{number:03}", self.name)
    }

    /// Its capture of a number, from 1: those of one seed stand together, and differ in the variant alone.
    pub fn capture(&self, number: usize) -> Vec<u8> {
        let (seed, variant) = ((number - 1) / self.variants, (number - 1) % self.variants);
        (self.make)(&mut Random::of(SEED, self.name, seed as u64), variant)
    }
}

/// The capture of events on port 0.
fn on_port_0(events: &[Call]) -> Vec<u8> {
    file::chain([true, false, false, false], events)
}
