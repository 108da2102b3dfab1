//! The conformance set: captures and what the rule prints of them, and the command that runs any program in place of `replay` over them and says in
//! words where it first parts from the rule. conformance/README.md says what it is given and what it tells.
//!
//! `groups` makes the seeded captures, `checksum` and `sums` hold them against conformance/sums, and `set` has them with the stored ones. `tool` is
//! the command, whose words `asked` reads. `trial` runs a program by the package's `running` and judges it by `difference` and `judging`; `report`
//! and `telling` tell what parts, with `playing` for what is due, `line` and `said` for what the program said, `reasons` for why the rule says
//! otherwise and `file_words` for a file that is refused; `folder` is where the files are written.

pub mod asked;
pub mod checksum;
pub mod difference;
pub mod file_words;
pub mod folder;
pub mod groups;
pub mod judging;
pub mod line;
pub mod playing;
pub mod reasons;
pub mod report;
pub mod said;
pub mod set;
pub mod sums;
pub mod telling;
#[cfg(test)]
mod tests;
pub mod tool;
pub mod trial;
