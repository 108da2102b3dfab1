//! The definitions that the crates have, by module, as the documents name them: `stream/Steps` is crates/stream/specs/Steps.antt,
//! `stream/declared` are the types that crates/stream/src declares, `stream/proofs/CasesHold` is crates/stream/proofs/CasesHold.antt.

use std::fs;
use std::path::{Path, PathBuf};

/// The folder of a crate's theorems, which stands in the name of a module of them.
pub const PROOFS: &str = "proofs";
/// Stands for a module in the name of the types that a crate's code declares.
const DECLARED: &str = "declared";
/// The folder of a crate's definitions.
const SPECS: &str = "specs";
/// The module of each crate that only lists the others.
const LIST: &str = "Lib";

/// The folder of the repository.
pub fn repository() -> PathBuf {
    Path::new(env!("CARGO_MANIFEST_DIR")).join("..")
}

/// The folder of a crate.
fn folder(name: &str) -> PathBuf {
    repository().join("crates").join(name)
}

/// Whether words can be the name of a module.
pub fn is_module(words: &str) -> bool {
    let parts: Vec<&str> = words.split('/').collect();
    let (name, file) = match parts[..] {
        [name, file] | [name, PROOFS, file] => (name, file),
        _ => return false,
    };
    let lower = |letter: char| letter.is_ascii_lowercase() || letter == '_';
    !name.is_empty() && name.chars().all(lower) && !file.is_empty() && file.chars().all(|letter| letter.is_ascii_alphanumeric())
}

/// The names that a module defines, or nothing where there is no such module.
pub fn of(module: &str) -> Option<Vec<String>> {
    match module.split('/').collect::<Vec<_>>()[..] {
        [name, DECLARED] => Some(declared(&folder(name).join("src"))?),
        [name, file] => Some(names(&text_of(name, SPECS, file)?, |line| line)),
        [name, PROOFS, file] => Some(names(&text_of(name, PROOFS, file)?, str::trim_start)),
        _ => None,
    }
}

/// The fields that the records of a module of definitions have for others, each after its record's name.
pub fn fields(module: &str) -> Vec<String> {
    let text = match module.split('/').collect::<Vec<_>>()[..] {
        [name, file] => text_of(name, SPECS, file).unwrap_or_default(),
        _ => String::new(),
    };
    let mut record = None;
    let mut fields = Vec::new();
    for line in text.lines() {
        if !line.starts_with(' ') {
            record = line.strip_prefix("pub record ").and_then(|rest| rest.split_whitespace().next());
        } else if let (Some(record), Some(name)) = (record, defined(line.trim_start())) {
            fields.push(format!("{record}.{name}"));
        }
    }
    fields
}

/// The text of a module of definitions or theorems, if there is one.
fn text_of(name: &str, kind: &str, file: &str) -> Option<String> {
    fs::read_to_string(folder(name).join(kind).join(format!("{file}.antt"))).ok()
}

/// The names that the lines of a text define, each line first taken as is said.
fn names(text: &str, taken: impl Fn(&str) -> &str) -> Vec<String> {
    text.lines().filter_map(|line| defined(taken(line))).map(String::from).collect()
}

/// The name that a line of a module defines for others, if it defines one.
fn defined(line: &str) -> Option<&str> {
    let line = ["abbrev ", "unfoldable "].iter().find_map(|word| line.strip_prefix(word)).unwrap_or(line);
    let line = line.strip_prefix("pub ")?;
    let line = ["record ", "data "].iter().find_map(|word| line.strip_prefix(word)).unwrap_or(line);
    line.split_whitespace().next().filter(|&word| word != "mod")
}

/// The types that the code of a folder declares for others, if there is such a folder.
fn declared(folder: &Path) -> Option<Vec<String>> {
    let files = fs::read_dir(folder).ok()?.map(|entry| entry.expect("the folder can be read").path());
    let texts = files.map(|file| fs::read_to_string(file).expect("the code can be read"));
    Some(texts.flat_map(|text| text.lines().filter_map(declares).map(String::from).collect::<Vec<_>>()).collect())
}

/// The type that a line of code declares for others, if it declares one.
fn declares(line: &str) -> Option<&str> {
    let line = ["pub struct ", "pub enum "].iter().find_map(|word| line.strip_prefix(word))?;
    line.split(|letter: char| !letter.is_ascii_alphanumeric()).next()
}

/// The modules of all crates' definitions, by name.
pub fn modules() -> Vec<String> {
    in_crates(SPECS, |name, file| format!("{name}/{file}"))
}

/// The modules of all crates' theorems, by name.
pub fn theorems() -> Vec<String> {
    in_crates(PROOFS, |name, file| format!("{name}/{PROOFS}/{file}"))
}

/// The modules in a folder of all crates, sorted, each named out of its crate and its file as is said.
fn in_crates(kind: &str, module: impl Fn(&str, &str) -> String) -> Vec<String> {
    let crates = entries(&repository().join("crates"));
    let mut modules: Vec<String> =
        crates.iter().flat_map(|name| files_of(name, kind).into_iter().map(|file| module(name, &file))).collect();
    modules.sort();
    modules
}

/// The modules in a folder of a crate, if it has that, but for the one that only lists the others.
fn files_of(name: &str, kind: &str) -> Vec<String> {
    let folder = folder(name).join(kind);
    let files = if folder.exists() { entries(&folder) } else { Vec::new() };
    files.iter().filter_map(|file| file.strip_suffix(".antt")).filter(|&file| file != LIST).map(String::from).collect()
}

/// The names in a folder.
fn entries(folder: &Path) -> Vec<String> {
    let entries = fs::read_dir(folder).unwrap_or_else(|why| panic!("{}: {why}", folder.display()));
    entries.map(|entry| entry.expect("the folder can be read").file_name().to_string_lossy().into_owned()).collect()
}
