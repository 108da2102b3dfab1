//! Slices as a host lends them, each with a way to tell whether a call touched an octet outside.

/// A slice that is lent to a call.
pub trait Lend {
    /// The lent octets.
    fn octets(&self) -> &[u8];

    /// The lent octets, to be written.
    fn octets_mut(&mut self) -> &mut [u8];

    /// Whether no octet outside the slice was touched so far.
    fn outside_kept(&self) -> bool;
}

/// The octets of a guard before the slice; an odd number, so that the slice itself stands at an odd place.
const GUARD_BEFORE: usize = 67;
/// The octets of a guard after the slice.
const GUARD_AFTER: usize = 64;
/// What a guard holds.
const GUARD_OCTET: u8 = 0xC7;

/// A slice with a guard before and after it in one allocation, which a write outside would change.
pub struct Lent {
    all: Vec<u8>,
    end: usize,
}

impl Lent {
    /// Lends a copy of the octets.
    pub fn new(octets: &[u8]) -> Lent {
        let end = GUARD_BEFORE + octets.len();
        let mut all = vec![GUARD_OCTET; end + GUARD_AFTER];
        all[GUARD_BEFORE..end].copy_from_slice(octets);
        Lent { all, end }
    }
}

impl Lend for Lent {
    fn octets(&self) -> &[u8] {
        &self.all[GUARD_BEFORE..self.end]
    }

    fn octets_mut(&mut self) -> &mut [u8] {
        &mut self.all[GUARD_BEFORE..self.end]
    }

    fn outside_kept(&self) -> bool {
        self.all[..GUARD_BEFORE] == [GUARD_OCTET; GUARD_BEFORE] && self.all[self.end..] == [GUARD_OCTET; GUARD_AFTER]
    }
}
