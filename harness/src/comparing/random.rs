//! A small seeded generator of numbers (splitmix64), so that every test is the same in each run.

use std::ops::RangeInclusive;

/// The step between two states of the generator.
const STEP: u64 = 0x9E37_79B9_7F4A_7C15;
/// The first number of the hash (FNV-1a) that turns the name of a test into a number.
const NAME_HASH_START: u64 = 0xCBF2_9CE4_8422_2325;
/// The factor of that hash.
const NAME_HASH_FACTOR: u64 = 0x0000_0100_0000_01B3;

/// The state of the generator.
pub struct Random {
    state: u64,
}

impl Random {
    /// The generator of one list, record or capture: it depends on the seed, the name of the test and the number of that in it.
    pub fn of(seed: u64, test: &str, number: u64) -> Random {
        let hash = |hash: u64, octet: u8| (hash ^ u64::from(octet)).wrapping_mul(NAME_HASH_FACTOR);
        let name = test.bytes().fold(NAME_HASH_START, hash);
        let mut mixed = Random { state: seed ^ name };
        Random { state: mixed.next().wrapping_add(number.wrapping_mul(STEP.rotate_left(32))) }
    }

    /// Any number of 64 bits.
    fn next(&mut self) -> u64 {
        self.state = self.state.wrapping_add(STEP);
        let mixed = (self.state ^ (self.state >> 30)).wrapping_mul(0xBF58_476D_1CE4_E5B9);
        let mixed = (mixed ^ (mixed >> 27)).wrapping_mul(0x94D0_49BB_1331_11EB);
        mixed ^ (mixed >> 31)
    }

    /// A number of 32 bits, any.
    pub fn number(&mut self) -> u32 {
        self.next() as u32
    }

    /// An octet, any.
    pub fn octet(&mut self) -> u8 {
        self.next() as u8
    }

    /// A number from 0 to one below the bound.
    pub fn below(&mut self, bound: usize) -> usize {
        (self.next() % bound as u64) as usize
    }

    /// A number of the range, both ends included.
    pub fn between(&mut self, range: RangeInclusive<u32>) -> u32 {
        let width = u64::from(range.end() - range.start()) + 1;
        range.start() + (self.next() % width) as u32
    }

    /// True so many times in a hundred.
    pub fn chance(&mut self, percent: usize) -> bool {
        self.below(100) < percent
    }

    /// One of the choices.
    pub fn pick<T: Clone>(&mut self, choices: &[T]) -> T {
        choices[self.below(choices.len())].clone()
    }

    /// The number of a weight, each as often as its weight says.
    pub fn weighted(&mut self, weights: &[usize]) -> usize {
        let mut rest = self.below(weights.iter().sum());
        for (number, &weight) in weights.iter().enumerate() {
            if rest < weight {
                return number;
            }
            rest -= weight;
        }
        unreachable!("the rest is below the sum of the weights")
    }

    /// An octet that differs from the given one.
    pub fn other_octet(&mut self, than: u8) -> u8 {
        than.wrapping_add(self.between(1..=255) as u8)
    }

    /// The numbers from 0 to one below the bound, in any order.
    pub fn shuffled(&mut self, bound: usize) -> Vec<usize> {
        let mut numbers: Vec<usize> = (0..bound).collect();
        for place in (1..bound).rev() {
            numbers.swap(place, self.below(place + 1));
        }
        numbers
    }

    /// Fills a slice with octets, any.
    pub fn fill(&mut self, octets: &mut [u8]) {
        for part in octets.chunks_mut(8) {
            part.copy_from_slice(&self.next().to_le_bytes()[..part.len()]);
        }
    }
}
