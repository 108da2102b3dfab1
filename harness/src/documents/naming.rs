//! The definitions that a document names, as in `stream/Steps` · `arrive_of`, `attempt`: a module, a middle dot, and definitions of it. A column of a
//! table whose head ends in a module and a middle dot has definitions of it alone. The index has for each definition the sections that name it.

use super::definitions::is_module;
use super::document::Document;
use super::pieces::{spans, Content, Piece};

/// Stands between a module and its definitions.
pub const DOT: &str = " · ";
/// Stands between two definitions.
const COMMA: &str = ", ";

/// A definition that is named, or a module alone.
#[derive(Debug, PartialEq, Eq)]
pub struct Named {
    pub section: String,
    pub module: String,
    pub definition: Option<String>,
}

/// What is named in the pieces of a document but for its index.
pub fn named(document: &Document, pieces: &[Piece]) -> Vec<Named> {
    pieces.iter().filter(|piece| !is_index(document, piece)).flat_map(in_piece).collect()
}

/// Whether a piece is of the index.
fn is_index(document: &Document, piece: &Piece) -> bool {
    document.index == Some(piece.section.as_str())
}

/// What is named in a piece.
pub fn in_piece(piece: &Piece) -> Vec<Named> {
    let found: Vec<(&str, Option<&str>)> = match &piece.content {
        Content::Prose(text) => in_text(text, None),
        Content::Row { heads, cells } => cells.iter().zip(heads).flat_map(|(cell, head)| in_text(cell, module_of(head))).collect(),
        Content::Fenced(_) => Vec::new(),
    };
    let named = |(module, definition): (&str, Option<&str>)| Named {
        section: piece.section.clone(),
        module: String::from(module),
        definition: definition.map(String::from),
    };
    found.into_iter().map(named).collect()
}

/// The module that the head of a column ends in, if it does.
fn module_of(head: &str) -> Option<&str> {
    spans(head).last().filter(|span| span.after == DOT.trim_end()).map(|span| span.code)
}

/// The modules and definitions named in a text, which begins with definitions of a module where one is given.
fn in_text<'a>(text: &'a str, head: Option<&'a str>) -> Vec<(&'a str, Option<&'a str>)> {
    let mut module = head;
    let mut named = Vec::new();
    for (at, span) in spans(text).into_iter().enumerate() {
        if is_module(span.code) {
            module = (span.after == DOT).then_some(span.code);
            named.extend(module.is_none().then_some((span.code, None)));
            continue;
        }
        let goes_on = [DOT, COMMA].contains(&span.before) || (at == 0 && span.before.is_empty());
        module = module.filter(|_| goes_on);
        named.extend(module.map(|module| (module, Some(span.code))));
    }
    named
}

/// A definition in the index, with the sections that name it.
#[derive(Debug, PartialEq, Eq)]
pub struct Indexed {
    pub module: String,
    pub definition: String,
    pub sections: Vec<String>,
}

/// The definitions in the index.
pub fn indexed(document: &Document, pieces: &[Piece]) -> Vec<Indexed> {
    let rows = pieces.iter().filter(|piece| is_index(document, piece)).map(Piece::texts);
    rows.filter(|cells| cells.len() == 2).flat_map(|cells| in_row(cells[0], cells[1])).collect()
}

/// The definitions in a row of the index: groups of definitions, each with its sections after it.
fn in_row(module: &str, groups: &str) -> Vec<Indexed> {
    groups.split("; ").flat_map(|group| in_group(module.trim_matches('`'), group)).collect()
}

/// The definitions of a group, each with the sections of the group.
fn in_group(module: &str, group: &str) -> Vec<Indexed> {
    let spans = spans(group);
    let sections: Vec<String> = spans.last().map_or("", |span| span.after).split_whitespace().map(String::from).collect();
    let of = |definition: &str| Indexed { module: String::from(module), definition: String::from(definition), sections: sections.clone() };
    spans.iter().map(|span| of(span.code)).collect()
}
