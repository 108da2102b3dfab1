//! The command: runs a program in place of `replay` over the captures of the set, lists them or writes them. Status 0 says that all agree with the
//! rule, 1 that one parts, 2 that the command line is wrong or the program cannot be started, 3 that the set itself is not what is stored of it, so
//! that nothing can be judged by it.

use std::io::Write;

use crate::capture::stored;
use crate::command_line::WRONG_WORDS;
use crate::conformance::asked::{self, Asked, Doing, USAGE};
use crate::conformance::folder::Folder;
use crate::conformance::report::Program;
use crate::conformance::set::{self, captures, Entry};
use crate::conformance::sums;
use crate::conformance::trial::Trial;

/// The status where all captures agree.
pub const ALL_AGREE: u8 = 0;
/// The status where one parts.
pub const ONE_PARTS: u8 = 1;
/// The status where the set is not what is stored of it.
const SET_DAMAGED: u8 = 3;

/// Why nothing more is done: the status, and what is told.
pub struct Failure {
    pub status: u8,
    pub what: String,
}

impl Failure {
    /// The set is not what is stored of it.
    pub fn of_the_set(what: &str) -> Failure {
        let what = format!(
            "an error of the conformance set, by which no program can be judged: {what}\nconformance/README.md says how the set is changed"
        );
        Failure { status: SET_DAMAGED, what }
    }
}

/// Does what the words ask; the status.
pub fn run(words: &[String], output: &mut dyn Write, errors: &mut dyn Write) -> u8 {
    let done = match asked::read(words) {
        Ok(asked) => done(&asked, output),
        Err(what) => Err(Failure { status: WRONG_WORDS, what: format!("{what}\n{USAGE}") }),
    };
    done.unwrap_or_else(|failure| {
        tell(errors, &failure.what);
        failure.status
    })
}

/// Does what is asked; the status.
fn done(asked: &Asked, output: &mut dyn Write) -> Result<u8, Failure> {
    let folder = Folder::of(asked.into.as_deref());
    match &asked.doing {
        Doing::Sums => tell(output, sums::text().trim_end()),
        Doing::List => list(&chosen(asked)?, output),
        Doing::Write => write(&chosen(asked)?, &folder, output)?,
        Doing::Run(words) => {
            let program = Program { words, limit: asked.limit, folder: &folder };
            return Trial::new(program, asked.all, asked.first, output).run(&chosen(asked)?);
        }
    }
    Ok(ALL_AGREE)
}

/// Tells a line; where it cannot be written, the status still says how it went.
pub fn tell(to: &mut dyn Write, line: &str) {
    let _ = writeln!(to, "{line}");
}

/// The captures that are asked for.
fn chosen(asked: &Asked) -> Result<Vec<Entry>, Failure> {
    let all = set::all().map_err(|why| Failure::of_the_set(&why))?;
    let names = |entry: &Entry, name: &String| *name == entry.name || name == entry.group;
    if let Some(name) = asked.only.iter().find(|name| !all.iter().any(|entry| names(entry, name))) {
        return Err(Failure { status: WRONG_WORDS, what: format!("'{name}' is no capture and no group; --list lists them") });
    }
    Ok(all.into_iter().filter(|entry| asked.only.is_empty() || asked.only.iter().any(|name| names(entry, name))).collect())
}

/// Lists the captures of each group.
fn list(entries: &[Entry], output: &mut dyn Write) {
    tell(output, &set::named());
    for group in set::by_group(entries) {
        let names: Vec<&str> = group.iter().map(|entry| entry.name.as_str()).collect();
        tell(output, &format!("{}, {}: {}\n  {}", group[0].group, captures(group.len()), set::about(group[0].group), names.join(" ")));
    }
}

/// Writes the captures and what the rule prints of them.
fn write(entries: &[Entry], folder: &Folder, output: &mut dyn Write) -> Result<(), Failure> {
    let failed = |what| Failure { status: ONE_PARTS, what };
    for entry in entries {
        let capture = entry.capture().map_err(|why| Failure::of_the_set(&why))?;
        folder.write(&entry.name, stored::CAPTURE, &capture.octets).map_err(failed)?;
        folder.write(&entry.name, stored::OUTPUT, capture.output.as_bytes()).map_err(failed)?;
    }
    let written = captures(entries.len());
    tell(output, &format!("{}: {written}, and what the rule prints of each, in {folder}", set::named()));
    Ok(())
}
