//! The group `without_events`: files in which no port has events, with and without records, of which `replay` prints nothing.

use crate::capture::file;
use crate::comparing::random::Random;
use crate::conformance::groups::chains::{Chains, NO_PORT};
use crate::model::capture::PORTS;

/// A header alone, or with records on no chain behind it.
pub fn capture(random: &mut Random) -> Vec<u8> {
    match random.pick(&[0, 0, 1, 5, 300, file::MOST_RECORDS]) {
        0 => file::header([0; PORTS]).to_vec(),
        records => Chains::of([(); PORTS].map(|()| Vec::new()), &vec![NO_PORT; records]).octets(random),
    }
}
