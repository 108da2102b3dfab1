//! The ranges by which the checkers go, a second reading of documents 01 and 02: their numbers stand here as numbers, not as the model's.

use std::ops::RangeInclusive;

/// "The largest charge becomes 2,020".
const LARGEST_CHARGE: u32 = 2_020;
/// "each arrival of a charge from 84 to" the largest one.
pub const CHARGES: RangeInclusive<u32> = 84..=LARGEST_CHARGE;
/// "17 (60 to 1,996)": the lengths of a frame, without check sequence.
pub const LENGTHS: RangeInclusive<usize> = 60..=1_996;
/// "its length without check sequence, plus 4 for the check sequence, plus 20 for preamble and gap".
pub const BESIDE_LENGTH: u32 = 4 + 20;

/// "the share is L − 2,020".
pub fn share(link: u32) -> u32 {
    link - LARGEST_CHARGE
}
