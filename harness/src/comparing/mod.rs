//! The comparing tests: what they lend and call, what they compare and count, and the tests of each kind.

pub mod broken;
pub mod calls;
pub mod chains;
pub mod compared;
pub mod counts;
pub mod coverage;
pub mod damage;
pub mod draining;
pub mod fenced;
pub mod fit;
pub mod frames;
pub mod lent;
pub mod lookups;
pub mod profiles;
pub mod program;
pub mod random;
pub mod registers;
pub mod replayed;
pub mod shapes;
pub mod sides;
pub mod stated;
pub mod test;
pub mod tests;
pub mod valgrind;
