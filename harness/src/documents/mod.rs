//! docs/RULE.md and docs/GUARANTEE.md held against the repository, so that they name and quote only what is there. `document` says what each has to
//! name, `pieces` takes a document apart, `naming` finds the definitions that it names, `definitions` those that the crates have, `quoting`
//! what it says that captures print, and `checking` says what is wrong. `edition` holds the texts, the C header and the host in Rust to one edition.

mod checking;
mod definitions;
mod document;
mod edition;
mod naming;
mod pieces;
mod quoting;
mod tests;
