//! The documents that are held to the definitions, and what each has to name.

use std::fs;

use super::definitions::{self, repository};
use super::pieces::{pieces, Piece};

/// A document, and what it says of the definitions.
pub struct Document {
    /// Its file in docs/.
    pub file: &'static str,
    /// The section that has for each definition the sections that name it, where there is one.
    pub index: Option<&'static str>,
    /// The section of the definitions that the text leaves out; a module alone stands for all of its own.
    pub left_out: &'static str,
    /// The crate whose definitions it has to name, or nothing where it has to name those of all.
    pub of_crate: Option<&'static str>,
    /// The records of which it has to name each field, as in `Promised.no-purge`.
    pub records: &'static [&'static str],
}

/// The rule of a port, which names every definition.
pub const RULE: Document = Document { file: "RULE.md", index: Some("13.1"), left_out: "13.2", of_crate: None, records: &[] };

/// What a port guarantees, which names every definition of demand 3 and each of its claims.
pub const GUARANTEE: Document = Document {
    file: "GUARANTEE.md",
    index: None,
    left_out: "Definitions that only serve these",
    of_crate: Some("guarantee"),
    records: &["Demand3", "Promised"],
};

impl Document {
    /// Its text.
    pub fn text(&self) -> String {
        fs::read_to_string(repository().join("docs").join(self.file)).expect("the document can be read")
    }

    /// Its pieces.
    pub fn pieces(&self) -> Vec<Piece> {
        pieces(&self.text())
    }

    /// The modules whose definitions it has to name.
    pub fn modules(&self) -> Vec<String> {
        definitions::modules().into_iter().filter(|module| self.covers(module)).collect()
    }

    /// The modules of the theorems of the crates that it has to name.
    pub fn theorems(&self) -> Vec<String> {
        definitions::theorems().into_iter().filter(|module| self.covers(module)).collect()
    }

    /// What it has to name of a module: its definitions, and the fields of the records whose fields it has to name.
    pub fn due(&self, module: &str) -> Vec<String> {
        let asked = |field: &String| self.records.iter().any(|record| field.starts_with(&format!("{record}.")));
        let fields = definitions::fields(module).into_iter().filter(asked);
        definitions::of(module).unwrap_or_default().into_iter().chain(fields).collect()
    }

    /// Whether a module is of a crate whose definitions it has to name.
    fn covers(&self, module: &str) -> bool {
        self.of_crate.is_none_or(|name| module.split('/').next() == Some(name))
    }
}
