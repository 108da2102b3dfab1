//! A document in Markdown piece by piece, each with the section that it stands in.

/// The line that begins and ends a fenced text.
const FENCE: &str = "```";
/// What begins the line of a heading.
const HEADING: char = '#';
/// What begins and ends the line of a table's row, and stands between its cells.
const CELL: char = '|';
/// What begins and ends words that are set as code.
const CODE: char = '`';

/// A piece of a document.
#[derive(Debug, PartialEq, Eq)]
pub struct Piece {
    /// The number in the heading above it, or the heading itself where that has none.
    pub section: String,
    pub content: Content,
}

/// What a piece is.
#[derive(Debug, PartialEq, Eq)]
pub enum Content {
    /// A paragraph, or an item of a list, in one line.
    Prose(String),
    /// A row of a table, cell by cell, with the cells of the table's head.
    Row { heads: Vec<String>, cells: Vec<String> },
    /// A fenced text, each line with its end.
    Fenced(String),
}

/// Words that are set as code, with the words before them and those after them, up to the next ones.
#[derive(Debug, PartialEq, Eq)]
pub struct Span<'a> {
    pub before: &'a str,
    pub code: &'a str,
    pub after: &'a str,
}

/// The words of a text that are set as code.
pub fn spans(text: &str) -> Vec<Span<'_>> {
    let parts: Vec<&str> = text.split(CODE).collect();
    let odd = (1..parts.len()).step_by(2);
    odd.map(|at| Span { before: parts[at - 1], code: parts[at], after: parts.get(at + 1).unwrap_or(&"") }).collect()
}

impl Piece {
    /// Its texts: the paragraph, or cell after cell; a fenced text is none.
    pub fn texts(&self) -> Vec<&str> {
        match &self.content {
            Content::Prose(text) => vec![text],
            Content::Row { cells, .. } => cells.iter().map(String::as_str).collect(),
            Content::Fenced(_) => Vec::new(),
        }
    }
}

/// The pieces of a document, in their order.
pub fn pieces(text: &str) -> Vec<Piece> {
    let mut reader = Reader::default();
    for line in text.lines() {
        reader.take(line);
    }
    reader.end_prose();
    reader.pieces
}

/// What was read of a document so far.
#[derive(Default)]
struct Reader {
    pieces: Vec<Piece>,
    section: String,
    /// The lines of the paragraph or item that is being read.
    prose: Vec<String>,
    /// The head of the table that is being read.
    heads: Vec<String>,
    /// The fenced text that is being read.
    fenced: Option<String>,
}

impl Reader {
    /// Takes the next line.
    fn take(&mut self, line: &str) {
        if line == FENCE {
            return self.fence();
        }
        if let Some(text) = &mut self.fenced {
            text.push_str(&format!("{line}\n"));
            return;
        }
        if line.starts_with(CELL) {
            return self.row(line);
        }
        self.heads.clear();
        if line.starts_with(HEADING) {
            return self.heading(line);
        }
        if line.is_empty() || begins_item(line) {
            self.end_prose();
        }
        self.prose.extend((!line.is_empty()).then(|| String::from(line.trim())));
    }

    /// A fenced text begins or ends.
    fn fence(&mut self) {
        self.end_prose();
        match self.fenced.take() {
            Some(text) => self.put(Content::Fenced(text)),
            None => self.fenced = Some(String::new()),
        }
    }

    /// A row of a table: its head, the line below that, or a row.
    fn row(&mut self, line: &str) {
        self.end_prose();
        let cells: Vec<String> = line.trim_matches(CELL).split(CELL).map(|cell| String::from(cell.trim())).collect();
        if self.heads.is_empty() {
            self.heads = cells;
        } else if !cells.iter().all(|cell| cell.starts_with("---")) {
            self.put(Content::Row { heads: self.heads.clone(), cells });
        }
    }

    /// A heading begins a section.
    fn heading(&mut self, line: &str) {
        self.end_prose();
        let heading = line.trim_start_matches(HEADING).trim();
        let word = heading.split_whitespace().next().unwrap_or_default();
        self.section = String::from(if word.starts_with(|letter: char| letter.is_ascii_digit()) { word } else { heading });
    }

    /// The paragraph or item ends, if there is one.
    fn end_prose(&mut self) {
        if !self.prose.is_empty() {
            let text = self.prose.join(" ");
            self.prose.clear();
            self.put(Content::Prose(text));
        }
    }

    /// Adds a piece.
    fn put(&mut self, content: Content) {
        self.pieces.push(Piece { section: self.section.clone(), content });
    }
}

/// Whether a line begins an item of a list.
fn begins_item(line: &str) -> bool {
    let number = line.trim_start_matches(|letter: char| letter.is_ascii_digit());
    line.starts_with("- ") || (number.len() < line.len() && number.starts_with(". "))
}
