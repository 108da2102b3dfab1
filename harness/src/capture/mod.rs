//! Captures as a person writes them: the octets of a capture file, and its text form both ways. captures/README.md says what the text form is.

pub mod file;
pub mod lines;
pub mod reading;
pub mod stored;
#[cfg(test)]
mod tests;
pub mod tool;
pub mod words;
pub mod writing;
