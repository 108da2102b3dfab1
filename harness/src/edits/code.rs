//! The code of a crate: which function a line is in.

/// What may stand before the word that declares a function.
const BEFORE: [&str; 4] = ["pub ", "const ", "unsafe ", "extern \"C\" "];

/// The path of the function that a line of a file of the code is in: its modules, its type where it is one's, and its name.
pub fn function_at(file: &str, text: &str, line: usize) -> Option<String> {
    let above: Vec<&str> = text.lines().take(line).collect();
    let (at, name) = above.iter().enumerate().rev().find_map(|(at, line)| Some((at, declared(line)?)))?;
    let mut path = modules(file);
    if indent(above[at]) > 0 {
        let block = above[..at].iter().rev().find(|line| !line.trim().is_empty() && indent(line) < indent(above[at]))?;
        path.push(type_of(block)?);
    }
    path.push(name);
    Some(path.join("::"))
}

/// The name of the function that a line declares.
fn declared(line: &str) -> Option<&str> {
    let mut rest = line.trim_start();
    while let Some(after) = BEFORE.iter().find_map(|before| rest.strip_prefix(before)) {
        rest = after;
    }
    rest.strip_prefix("fn ").map(word)
}

/// The type of a line 'impl TYPE {' or 'impl TRAIT for TYPE {'.
fn type_of(line: &str) -> Option<&str> {
    let named = line.strip_prefix("impl ")?;
    Some(word(named.split_once(" for ").map_or(named, |(_, of)| of)))
}

/// The modules that a file is of.
fn modules(file: &str) -> Vec<&str> {
    let path = file.strip_prefix("src/").unwrap_or(file);
    let path = path.strip_suffix(".rt").unwrap_or(path);
    path.split('/').filter(|step| !["lib", "main", "mod"].contains(step)).collect()
}

/// The word that a text begins with.
fn word(text: &str) -> &str {
    text.split(|mark: char| !mark.is_alphanumeric() && mark != '_').next().unwrap_or_default()
}

/// How far a line is set in.
fn indent(line: &str) -> usize {
    line.len() - line.trim_start().len()
}

#[cfg(test)]
mod tests {
    use super::*;

    /// A file of code.
    const TEXT: &str = "\
// A stream.
pub struct Stream {
    pub place: u8,
}

impl Stream {
    // The next place.
    pub fn next(self) -> u8
        requires { self.place ≤ 254 }
    {
        self.place + 1
    }
}

#[unsafe(no_mangle)]
pub extern \"C\" fn last(place: u8) -> u8 {
    place
}
";

    #[test]
    fn the_function_of_a_line_is_found() {
        assert_eq!(function_at("src/lib.rt", TEXT, 11).as_deref(), Some("Stream::next"));
        assert_eq!(function_at("src/lib.rt", TEXT, 8).as_deref(), Some("Stream::next"));
        assert_eq!(function_at("src/entry.rt", TEXT, 16).as_deref(), Some("entry::last"));
        assert_eq!(function_at("src/head/mod.rt", TEXT, 17).as_deref(), Some("head::last"));
        assert_eq!(function_at("src/head/part.rt", TEXT, 7), None);
    }
}
