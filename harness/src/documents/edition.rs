//! The edition of the rule, the number of the last request that has landed: the text of the rule says it, and the conformance set, the C header, the host
//! in Rust and the last section of docs/CHANGES.md say the same.

use std::fs;
use std::path::Path;

/// The texts whose first line under the title says the edition.
const TEXTS: [&str; 2] = ["docs/RULE.md", "conformance/README.md"];
/// The C header, and what stands before its edition.
const HEADER: (&str, &str) = ("include/bunnysolder.h", "#define BUNNYSOLDER_EDITION ");
/// The host in Rust, and what stands before its edition.
const HOST: (&str, &str) = ("host/src/lib.rs", "pub const EDITION: u32 = ");
/// The tool of the conformance set, which names the edition with its captures, and what stands before it.
const SET: (&str, &str) = ("harness/src/conformance/set.rs", "pub const EDITION: u32 = ");
/// The text of what each request moved.
const CHANGES: &str = "docs/CHANGES.md";

/// A file of the repository.
fn text(path: &str) -> String {
    let repository = Path::new(env!("CARGO_MANIFEST_DIR")).join("..");
    fs::read_to_string(repository.join(path)).unwrap_or_else(|why| panic!("{path}: {why}"))
}

/// The number that a text says by its first line under the title: "Edition", the number, a colon, and words.
fn under_the_title(text: &str) -> Option<u32> {
    let mut lines = text.lines();
    let is_titled = lines.next()?.starts_with("# ") && lines.next()?.is_empty();
    let (number, words) = lines.next()?.strip_prefix("Edition ")?.split_once(": ")?;
    (is_titled && !words.is_empty()).then(|| number.parse().ok())?
}

/// The number that a line of a text has after these words, where one line alone begins with them.
fn after(text: &str, words: &str) -> Option<u32> {
    let mut rests = text.lines().filter_map(|line| line.strip_prefix(words));
    let number = rests.next()?.trim_end_matches(';').parse().ok();
    number.filter(|_| rests.next().is_none())
}

/// The number of the last request that has a section in a text: "## CR", the number, and the request's name.
fn of_the_last_section(text: &str) -> Option<u32> {
    let heading = text.lines().filter(|line| line.starts_with("## ")).last()?;
    heading.strip_prefix("## CR ")?.split_once(' ')?.0.parse().ok()
}

#[test]
fn all_say_the_same_edition() {
    let of_texts = TEXTS.map(|path| (path, under_the_title(&text(path))));
    let of_constants = [HEADER, HOST, SET].map(|(path, words)| (path, after(&text(path), words)));
    let of_changes = (CHANGES, of_the_last_section(&text(CHANGES)));
    let edition = of_texts[0].1.expect("docs/RULE.md says its edition in the first line under its title");
    for (path, number) in of_texts.into_iter().chain(of_constants).chain([of_changes]) {
        assert_eq!(number, Some(edition), "{path}");
    }
}

#[test]
fn an_edition_is_read_where_it_stands() {
    assert_eq!(under_the_title("# A title\n\nEdition 7: some words.\n"), Some(7));
    for wrong in
        ["# A title\nEdition 7: words\n", "# A title\n\nEdition seven: words\n", "# A title\n\nEdition 7: \n", "Edition 7: words\n", ""]
    {
        assert_eq!(under_the_title(wrong), None, "{wrong}");
    }
    assert_eq!(after("a 1\nb 2;\n", "b "), Some(2));
    for wrong in ["b 2\nb 2\n", "b two\n", " b 2\n", ""] {
        assert_eq!(after(wrong, "b "), None, "{wrong}");
    }
    assert_eq!(of_the_last_section("# Changes\n\n## CR 1 A name\n\n## CR 7 Another\n\ntext\n"), Some(7));
    for wrong in ["## CR 1 A name\n## Else\n", "## CR one\n", "## CR 1\n", ""] {
        assert_eq!(of_the_last_section(wrong), None, "{wrong}");
    }
}
