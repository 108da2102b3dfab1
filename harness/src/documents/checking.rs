//! What is wrong with a document, in words: definitions that it names and that are not there, an index that is not of its text, definitions that it
//! leaves out without saying so, names whose module it does not say, links and captures that are not there, and outputs that no capture has.

use std::collections::{BTreeMap, BTreeSet};

use super::definitions::{self, is_module, repository};
use super::document::Document;
use super::naming::{in_piece, indexed, named, Named, DOT};
use super::pieces::{spans, Piece};
use super::quoting::{captures, links, quotes, Quote};
use crate::capture::stored;

/// A definition by its module and its name.
type Definition = (String, String);

/// The definitions and modules that are named and are not there.
pub fn unknown(document: &Document, pieces: &[Piece]) -> Vec<String> {
    let dotted = pieces.iter().flat_map(no_modules);
    dotted.chain(named(document, pieces).iter().filter_map(|one| unknown_one(document, one))).collect()
}

/// What stands before a middle dot in a piece and is no module.
fn no_modules(piece: &Piece) -> Vec<String> {
    let spans = piece.texts().into_iter().flat_map(spans);
    let wrong = spans.filter(|span| span.after.starts_with(DOT.trim_end()) && !is_module(span.code));
    wrong.map(|span| format!("{}: `{}` is no module; write it as `stream/Steps`", piece.section, span.code)).collect()
}

/// What is wrong with one that is named, if something is.
fn unknown_one(document: &Document, one: &Named) -> Option<String> {
    let Named { section, module, definition } = one;
    let Some(names) = definitions::of(module) else {
        return Some(format!("{section}: there is no module `{module}`; name the one that has the definition"));
    };
    match definition {
        Some(name) if !names.contains(name) && !definitions::fields(module).contains(name) => {
            Some(format!("{section}: `{module}` does not define `{name}`; name a definition that it has"))
        }
        None if section != document.left_out => Some(format!("{section}: `{module}` stands alone; name the definition after it")),
        _ => None,
    }
}

/// Where the index differs from what the text names.
pub fn misindexed(document: &Document, pieces: &[Piece]) -> Vec<String> {
    let (text, index) = (sections_of_text(document, pieces), sections_of_index(document, pieces));
    let all: BTreeSet<&Definition> = text.keys().chain(index.keys()).collect();
    all.into_iter().filter(|&one| text.get(one) != index.get(one)).map(|one| differing(one, text.get(one), index.get(one))).collect()
}

/// The sections in which the text names each definition.
fn sections_of_text(document: &Document, pieces: &[Piece]) -> BTreeMap<Definition, BTreeSet<String>> {
    let mut sections: BTreeMap<Definition, BTreeSet<String>> = BTreeMap::new();
    for Named { section, module, definition } in named(document, pieces).into_iter().filter(|one| one.section != document.left_out) {
        sections.entry((module, definition.unwrap_or_default())).or_default().insert(section);
    }
    sections
}

/// The sections that the index gives for each definition.
fn sections_of_index(document: &Document, pieces: &[Piece]) -> BTreeMap<Definition, BTreeSet<String>> {
    let mut sections: BTreeMap<Definition, BTreeSet<String>> = BTreeMap::new();
    for one in indexed(document, pieces) {
        sections.entry((one.module, one.definition)).or_default().extend(one.sections);
    }
    sections
}

/// Says how text and index differ about a definition.
fn differing((module, name): &Definition, text: Option<&BTreeSet<String>>, index: Option<&BTreeSet<String>>) -> String {
    let told = |sections: Option<&BTreeSet<String>>| match sections {
        Some(sections) => sections.iter().cloned().collect::<Vec<_>>().join(" "),
        None => String::from("nothing"),
    };
    format!("index: `{module}` · `{name}` is named in {}, and the index says {}; set the index right", told(text), told(index))
}

/// The definitions that the document has to name and that its text neither names nor leaves out in so many words.
pub fn unnamed(document: &Document, pieces: &[Piece]) -> Vec<String> {
    let named = named(document, pieces);
    document.modules().iter().flat_map(|module| unnamed_of(document, module, &named)).collect()
}

/// Those of one module.
fn unnamed_of(document: &Document, module: &str, named: &[Named]) -> Vec<String> {
    let of_module: Vec<&Named> = named.iter().filter(|one| one.module == module).collect();
    if of_module.iter().any(|one| one.definition.is_none() && one.section == document.left_out) {
        return Vec::new();
    }
    let (names, left_out) = (document.due(module), document.left_out);
    let missing = names.iter().filter(|name| !of_module.iter().any(|one| one.definition.as_ref() == Some(name)));
    missing.map(|name| format!("`{module}` · `{name}` is nowhere named; give it a sentence, or a line in {left_out}")).collect()
}

/// The words set as code that are the name of a definition or theorem of the crates that the document has to name, and stand after no module.
pub fn unplaced(document: &Document, pieces: &[Piece]) -> Vec<String> {
    let modules = document.modules().into_iter().chain(document.theorems());
    let names: BTreeSet<String> = modules.flat_map(|module| definitions::of(&module).unwrap_or_default()).collect();
    pieces.iter().flat_map(|piece| unplaced_in(piece, &names)).collect()
}

/// Those of a piece.
fn unplaced_in(piece: &Piece, names: &BTreeSet<String>) -> Vec<String> {
    let placed: Vec<Option<String>> = in_piece(piece).into_iter().map(|one| one.definition).collect();
    let words = piece.texts().into_iter().flat_map(spans).map(|span| String::from(span.code));
    let wrong = words.filter(|word| names.contains(word) && !placed.contains(&Some(word.clone())));
    wrong.map(|word| format!("{}: `{word}` stands after no module; write the one that has it before it", piece.section)).collect()
}

/// The links and captures that are not there.
pub fn not_there(_: &Document, pieces: &[Piece]) -> Vec<String> {
    let documents = repository().join("docs");
    let links = links(pieces).into_iter().filter(|(_, link)| !documents.join(link).exists());
    let captures = captures(pieces).into_iter().filter(|(_, name)| !stored::path(name).exists());
    let links = links.map(|(section, link)| format!("{section}: docs/{link} is not there"));
    links.chain(captures.map(|(section, name)| format!("{section}: captures/{name}.capture is not there"))).collect()
}

/// The outputs that their captures do not have.
pub fn misquoted(_: &Document, pieces: &[Piece]) -> Vec<String> {
    quotes(pieces).iter().filter_map(misquoted_one).collect()
}

/// What is wrong with one output, if something is.
fn misquoted_one(quote: &Quote) -> Option<String> {
    let Quote { section, capture, text, whole } = quote;
    let Some(name) = capture else {
        return Some(format!("{section}: '{text}' is of no capture; name the capture before it"));
    };
    let Ok(stored) = stored::one(name) else {
        return Some(format!("{section}: captures/{name} cannot be read"));
    };
    let right = if *whole { stored.output == *text } else { stored.output.lines().any(|line| line == text) };
    (!right).then(|| format!("{section}: '{text}' is not what `replay` prints of captures/{name}.capture"))
}
