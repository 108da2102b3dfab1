//! The edit files of a crate: each holds wrong programs one after the other, and each wrong program says what is wrong, which functions and laws are
//! refused, what shows that it is wrong, and its edits.

use std::fs;
use std::path::{Path, PathBuf};

use crate::seeding::{Edit, EditLines};

/// Where an edit may be made: in the code and in the definitions, never in a proof.
const CODE: &str = "src/";
const DEFINITIONS: &str = "specs/";

/// The edit files' ending.
const ENDING: &str = "edit";

/// What must show that a wrong program is wrong.
#[derive(Clone, Debug, PartialEq, Eq)]
pub enum Evidence {
    /// The crate's case program prints something else.
    Cases,
    /// Each of these laws computes to something else.
    Shown(Vec<String>),
    /// This law, which the wrong program adds to the definitions, is proved.
    Opposite(String),
    /// It changes a definition, and names nothing that shows it to be wrong.
    None,
}

/// One wrong program: what is wrong, the functions and laws that are refused, what shows that it is wrong, and its edits.
#[derive(Clone, Debug, PartialEq, Eq)]
pub struct WrongProgram {
    pub words: String,
    pub refused: Vec<String>,
    pub evidence: Evidence,
    pub edits: Vec<Edit>,
}

/// An edit file: its crate, its name, and its wrong programs.
#[derive(Debug, PartialEq, Eq)]
pub struct EditFile {
    pub of: String,
    pub label: String,
    pub programs: Vec<WrongProgram>,
}

/// A wrong program of which some lines were read.
#[derive(Default)]
struct Begun {
    words: Vec<String>,
    refused: Option<Vec<String>>,
    shown: Option<Vec<String>>,
    opposite: Option<Vec<String>>,
    edits: EditLines,
}

/// The paths of a folder's edit files, by name; a folder that is not there has none.
pub fn paths(folder: &Path) -> Result<Vec<PathBuf>, String> {
    if !folder.exists() {
        return Ok(Vec::new());
    }
    let told = |why| format!("{}: {why}", folder.display());
    let entries: Result<Vec<_>, _> = fs::read_dir(folder).map_err(told)?.collect();
    let mut paths: Vec<PathBuf> = entries.map_err(told)?.iter().map(|entry| entry.path()).collect();
    paths.retain(|path| path.extension().is_some_and(|ending| ending == ENDING));
    paths.sort();
    Ok(paths)
}

/// The edit file of a crate at a path.
pub fn read(of: &str, path: &Path) -> Result<EditFile, String> {
    let label = path.file_stem().unwrap_or_default().to_string_lossy().into_owned();
    let told = |why: String| format!("{of}/{label}: {why}");
    let text = fs::read_to_string(path).map_err(|why| told(why.to_string()))?;
    let programs = programs(&text).map_err(told)?;
    Ok(EditFile { of: of.into(), label, programs })
}

/// The wrong programs of an edit file's text: a comment after an edit begins the next, and an empty line may stand between them.
fn programs(text: &str) -> Result<Vec<WrongProgram>, String> {
    let (mut programs, mut begun) = (Vec::new(), Begun::default());
    for line in text.lines().filter(|line| !line.is_empty()) {
        if line.starts_with('#') && begun.edits.any() {
            programs.push(begun.whole()?);
            begun = Begun::default();
        }
        begun.take(line)?;
    }
    programs.push(begun.whole()?);
    if let Some(law) = named_twice(programs.iter().flat_map(WrongProgram::shown_by)) {
        return Err(format!("{law} is to show that two wrong programs are wrong, which are proved together"));
    }
    if let Some(function) = named_twice(programs.iter().flat_map(WrongProgram::named_of_code)) {
        return Err(format!("{function} is named by two wrong programs of code, which are proved together"));
    }
    Ok(programs)
}

/// A name that is among these twice.
fn named_twice<'a>(names: impl Iterator<Item = &'a String>) -> Option<&'a String> {
    let names: Vec<&String> = names.collect();
    names.iter().enumerate().find(|(at, name)| names[..*at].contains(name)).map(|(_, name)| *name)
}

impl Begun {
    /// Takes a line of the wrong program.
    fn take(&mut self, line: &str) -> Result<(), String> {
        if self.edits.take(line)? {
            return Ok(());
        }
        let words = line.strip_prefix("# ").ok_or_else(|| format!("'{line}' is no line of an edit"))?;
        let names = |names: &str| Some(names.split_whitespace().map(String::from).collect());
        let (place, names) = match words.split_once(": ") {
            Some(("refused", rest)) => (&mut self.refused, names(rest)),
            Some(("shown", rest)) => (&mut self.shown, names(rest)),
            Some(("opposite", rest)) => (&mut self.opposite, names(rest)),
            _ => return Ok(self.words.push(words.into())),
        };
        match place.is_some() {
            true => Err(format!("'{line}' is a second line of its sort in one wrong program")),
            false => Ok(*place = names),
        }
    }

    /// The wrong program, once all of its lines were taken.
    fn whole(self) -> Result<WrongProgram, String> {
        let words = self.words.join(" ");
        let told = |why: &str| format!("{words}: {why}");
        if words.is_empty() {
            return Err(String::from("a wrong program does not say what is wrong"));
        }
        let refused = self.refused.filter(|names| !names.is_empty()).ok_or_else(|| told("it names nothing in a line '# refused:'"))?;
        let edits = self.edits.edits().map_err(|why| told(&why))?;
        if let Some(edit) = edits.iter().find(|edit| !allowed(&edit.file)) {
            return Err(told(&format!("'{}' is no file of the code or of the definitions", edit.file)));
        }
        let evidence = evidence(self.shown, self.opposite, &edits).map_err(|why| told(&why))?;
        Ok(WrongProgram { words, refused, evidence, edits })
    }
}

/// What a wrong program is shown by: what its lines name, or else its cases where it changes no definition.
fn evidence(shown: Option<Vec<String>>, opposite: Option<Vec<String>>, edits: &[Edit]) -> Result<Evidence, String> {
    match (shown, opposite.as_deref()) {
        (Some(_), Some(_)) => Err(String::from("it has a line '# shown:' and a line '# opposite:'")),
        (Some(laws), None) if laws.is_empty() => Err(String::from("it names no law in its line '# shown:'")),
        (Some(laws), None) => Ok(Evidence::Shown(laws)),
        (None, Some([law])) => Ok(Evidence::Opposite(law.clone())),
        (None, Some(_)) => Err(String::from("its line '# opposite:' does not name one law")),
        (None, None) if edits.iter().all(|edit| edit.file.starts_with(CODE)) => Ok(Evidence::Cases),
        (None, None) => Ok(Evidence::None),
    }
}

/// Whether an edit may be made in a file: it is one of the code or of the definitions, and of this crate.
fn allowed(file: &str) -> bool {
    [CODE, DEFINITIONS].iter().any(|part| file.starts_with(part)) && !file.split('/').any(|step| step == "..")
}

impl WrongProgram {
    /// The laws that are to show that it is wrong.
    fn shown_by(&self) -> &[String] {
        match &self.evidence {
            Evidence::Shown(laws) => laws,
            _ => &[],
        }
    }

    /// The functions that it names where it changes code alone: an error in one of them could be another wrong program's.
    fn named_of_code(&self) -> &[String] {
        match &self.evidence {
            Evidence::Cases => &self.refused,
            _ => &[],
        }
    }

    /// The new texts of the edits of definitions.
    pub fn defined(&self) -> impl Iterator<Item = &str> {
        self.edits.iter().filter(|edit| edit.file.starts_with(DEFINITIONS)).map(|edit| edit.new.as_str())
    }
}

#[cfg(test)]
mod tests {
    use super::*;

    /// Two wrong programs, one of the code and one of a definition.
    const TWO: &str = "# Two octets read\n# low octet first.\n# refused: two_at put::two\nfile: src/lib.rt\nold: two(high, low)\nnew: two(low, high)\n\n\
                       # A share of nothing.\n# refused: share\n# shown: share-at-most share-of-least\nfile: specs/Ranges.antt\nold: link - greatest\n\
                       new: 0\nold: a\nnew:\n";

    /// What is wrong with a text that is no edit file.
    fn wrong(text: &str) -> String {
        programs(text).expect_err("the text is no edit file")
    }

    #[test]
    fn wrong_programs_are_read_one_after_the_other() {
        let programs = programs(TWO).expect("the text is an edit file");
        let words: Vec<&str> = programs.iter().map(|program| program.words.as_str()).collect();
        assert_eq!(words, ["Two octets read low octet first.", "A share of nothing."]);
        assert_eq!((&programs[0].refused[..], &programs[0].evidence), (&["two_at".into(), "put::two".into()][..], &Evidence::Cases));
        let edit = Edit { file: "src/lib.rt".into(), old: "two(high, low)".into(), new: "two(low, high)".into() };
        assert_eq!(programs[0].edits, [edit]);
        assert_eq!(programs[1].evidence, Evidence::Shown(vec!["share-at-most".into(), "share-of-least".into()]));
        assert_eq!(programs[1].defined().collect::<Vec<_>>(), ["0", ""]);
    }

    #[test]
    fn what_is_asked_follows_from_the_lines() {
        let asked = |lines: &str, file: &str| {
            let text = format!("# words\n# refused: a\n{lines}file: {file}\nold: a\nnew: b\n");
            programs(&text).map(|programs| programs[0].evidence.clone())
        };
        assert_eq!(asked("", "src/lib.rt"), Ok(Evidence::Cases));
        assert_eq!(asked("", "specs/A.antt"), Ok(Evidence::None));
        assert_eq!(asked("# opposite: so\n", "specs/A.antt"), Ok(Evidence::Opposite("so".into())));
        assert_eq!(asked("# opposite: so not\n", "specs/A.antt"), Err("words: its line '# opposite:' does not name one law".into()));
        assert_eq!(
            asked("# shown: so\n# opposite: so\n", "specs/A.antt"),
            Err("words: it has a line '# shown:' and a line '# opposite:'".into())
        );
        assert_eq!(asked("# shown: \n", "specs/A.antt"), Err("words: it names no law in its line '# shown:'".into()));
    }

    #[test]
    fn wrong_files_are_told() {
        assert_eq!(wrong("# refused: a\nfile: src/lib.rt\nold: a\nnew: b\n"), "a wrong program does not say what is wrong");
        assert_eq!(wrong("# words\nfile: src/lib.rt\nold: a\nnew: b\n"), "words: it names nothing in a line '# refused:'");
        assert_eq!(wrong("# words\n# refused: a\n# refused: b\n"), "'# refused: b' is a second line of its sort in one wrong program");
        assert_eq!(wrong("# words\n# refused: a\n"), "words: it names no edit");
        assert_eq!(wrong("# words\n# refused: a\nold: a\nnew: b\n"), "no line 'file:' stands before 'old: a'");
        assert_eq!(wrong("words\n"), "'words' is no line of an edit");
        for file in ["proofs/Laws.antt", "must-fail/a.edit", "src/../proofs/Laws.antt"] {
            let text = format!("# words\n# refused: a\nfile: {file}\nold: a\nnew: b\n");
            assert_eq!(wrong(&text), format!("words: '{file}' is no file of the code or of the definitions"));
        }
    }

    #[test]
    fn a_law_shows_one_wrong_program_of_a_file() {
        let one = |law: &str| format!("# words\n# refused: a\n# shown: {law}\nfile: specs/A.antt\nold: a\nnew: b\n");
        assert!(programs(&[one("so"), one("so-too")].concat()).is_ok());
        let why = "so is to show that two wrong programs are wrong, which are proved together";
        assert_eq!(wrong(&[one("so"), one("not so")].concat()), why);
    }

    #[test]
    fn a_function_is_named_by_one_wrong_program_of_code_in_a_file() {
        let one = |names: &str, file: &str| format!("# words\n# refused: {names}\nfile: {file}\nold: a\nnew: b\n");
        assert!(programs(&[one("a", "src/lib.rt"), one("b", "src/lib.rt"), one("a", "specs/A.antt")].concat()).is_ok());
        let why = "a is named by two wrong programs of code, which are proved together";
        assert_eq!(wrong(&[one("a", "src/lib.rt"), one("b a", "src/lib.rt")].concat()), why);
    }

    #[test]
    fn each_wrong_program_states_its_own_file() {
        let text = "# words\n# refused: a\nfile: src/lib.rt\nold: a\nnew: b\n# others\n# refused: c\nold: c\nnew: d\n";
        assert_eq!(wrong(text), "no line 'file:' stands before 'old: c'");
    }
}
