//! Runs of wrong programs, without a proof. A repository is laid out with a copy of a crate for each of several wrong programs and with those below it;
//! the crate's case program, once for each copy, or the crate itself where it is a program, is run there by `rt try` and held to what the right code
//! prints.

use std::fs;
use std::path::{Path, PathBuf};
use std::process::Command;
use std::time::Duration;

use super::repository::Repository;
use crate::running::{self, Bounds, End};
use crate::seeding::{copy_all, removed, write, Edit};

/// How many wrong programs are run at once: reading the libraries takes most of a run.
pub const AT_ONCE: usize = 16;

/// What a run may take.
const BOUNDS: Bounds = Bounds { time: Duration::from_secs(300), stdout: 1 << 20, stderr: 1 << 20 };

/// The name of the crate that runs the case programs, and the library of the toolchain that these print with.
const CASES: &str = "cases";
const PRINTING: &str = "io";

/// How code names the whole library of the toolchain.
const WHOLE: &str = "std::";

/// What is at the top of a repository whose crates each have a build file.
const TOP: &str = "MODULE.bazel";
/// The build file of a crate.
const BUILD: &str = "BUILD.bazel";

/// What begins the line between two outputs.
const BETWEEN: &str = "== ";

/// What `rt try` says last of a program that ended by itself and well.
const ENDED: &str = "run=ended status=0 ";
/// What it says before a fault or a difference that it found.
const FAULTS: [&str; 2] = [": fault ", "error"];

/// What a run shows.
#[derive(Clone, Debug, PartialEq, Eq)]
pub enum Shown {
    /// It wrote what the right code writes.
    Same,
    /// It wrote something else: the first line that differs, as it is expected and as it was found.
    Other { expected: String, found: String },
}

/// Runs the cases of a crate under each of these wrong programs, in folders that are laid out in this one: what each shows, or why it shows nothing.
pub fn run(repository: &Repository, of: &str, programs: &[&[Edit]], folder: &Path) -> Vec<Result<Shown, String>> {
    if repository.is_program(of) {
        return programs.iter().map(|edits| of_program(repository, of, edits, folder)).collect();
    }
    match of_cases(repository, of, programs, folder) {
        Ok(shown) => shown,
        Err(why) if programs.len() == 1 => vec![Err(why)],
        Err(_) => {
            let (some, others) = programs.split_at(programs.len() / 2);
            [some, others].iter().flat_map(|programs| run(repository, of, programs, folder)).collect()
        }
    }
}

/// Runs a crate that is a program, with the edits made.
fn of_program(repository: &Repository, of: &str, edits: &[Edit], folder: &Path) -> Result<Shown, String> {
    emptied(folder)?;
    for below in repository.reached(of) {
        lay_out(repository, below, below, repository.uses(below), Library::Whole, folder)?;
    }
    let copy = folder.join(of);
    edits.iter().try_for_each(|edit| edit.made(&copy))?;
    let read = |part: &str| fs::read(repository.crate_folder(of).join(part)).unwrap_or_default();
    Ok(shown(&tried(&copy, &read("stdin"))?, &String::from_utf8_lossy(&read("stdout"))))
}

/// Runs the case program of a library, once for each of these wrong programs; those that cannot be made are left out.
fn of_cases(repository: &Repository, of: &str, programs: &[&[Edit]], folder: &Path) -> Result<Vec<Result<Shown, String>>, String> {
    let read = |path: PathBuf| fs::read_to_string(&path).map_err(|why| format!("{}: {why}", path.display()));
    let (text, expected) = (read(repository.cases(of, ".txt"))?, read(repository.cases(of, ".out"))?);
    let library = library(repository, of)?;
    emptied(folder)?;
    for below in repository.reached(of).into_iter().filter(|below| *below != of) {
        lay_out(repository, below, below, repository.uses(below), library, folder)?;
    }
    let mut made = Vec::new();
    let (mut modules, mut calls, mut copies) = (String::new(), String::new(), Vec::new());
    for edits in programs {
        let number = copies.len();
        let name = format!("{of}_{number}");
        removed(&folder.join(&name))?;
        lay_out(repository, of, &name, repository.uses(of), library, folder)?;
        let edited = edits.iter().try_for_each(|edit| edit.made(&folder.join(&name)));
        if edited.is_ok() {
            write(&folder.join(CASES).join(format!("src/{CASES}_{number}.rt")), &of_copy(&text, of, &name))?;
            modules += &format!("mod {CASES}_{number};\n");
            calls += &format!("    {PRINTING}::write_all(1, b\"{BETWEEN}{number}\\n\");\n    {CASES}_{number}::main();\n");
            copies.push(name);
        }
        made.push(edited);
    }
    let uses = [repository.uses(of), &[PRINTING.into()], &copies].concat();
    write(&folder.join(CASES).join("src/main.rt"), &format!("{modules}\nfn main() {{\n{calls}}}\n"))?;
    write(&folder.join(CASES).join(BUILD), &build_file(repository, CASES, &uses, library, &copies))?;
    let printed = if copies.is_empty() { String::new() } else { tried(&folder.join(CASES), b"")? };
    let mut outputs = outputs(&printed, copies.len())?.into_iter();
    let shown = |made: Result<(), String>| made.map(|()| shown(&outputs.next().unwrap_or_default(), &expected));
    Ok(made.into_iter().map(shown).collect())
}

/// The library that a crate and those below it stand on: the whole one where their code names it.
fn library(repository: &Repository, of: &str) -> Result<Library, String> {
    for below in repository.reached(of) {
        if names_library(&repository.crate_folder(below).join("src"))? {
            return Ok(Library::Whole);
        }
    }
    Ok(Library::Core)
}

/// Whether the code of a folder names the whole library, in a line that is no comment.
fn names_library(folder: &Path) -> Result<bool, String> {
    let told = |why| format!("{}: {why}", folder.display());
    for entry in fs::read_dir(folder).map_err(told)? {
        let path = entry.map_err(told)?.path();
        let found = match path.is_dir() {
            true => names_library(&path)?,
            false => {
                fs::read_to_string(&path).map_err(told)?.lines().any(|line| line.contains(WHOLE) && !line.trim_start().starts_with("//"))
            }
        };
        if found {
            return Ok(true);
        }
    }
    Ok(false)
}

/// The library that the crates of a repository stand on: the whole one, or its core alone, which is quicker to read.
#[derive(Clone, Copy, PartialEq, Eq)]
enum Library {
    Whole,
    Core,
}

/// Empties a folder, and makes it the top of a repository.
fn emptied(folder: &Path) -> Result<(), String> {
    removed(folder)?;
    write(&folder.join(TOP), "")
}

/// Lays out the code of a crate under a name, with its build file.
fn lay_out(repository: &Repository, of: &str, name: &str, uses: &[String], library: Library, folder: &Path) -> Result<(), String> {
    let copy = folder.join(name);
    copy_all(&repository.crate_folder(of).join("src"), &copy.join("src"))?;
    write(&copy.join(BUILD), &build_file(repository, name, uses, library, &[]))
}

/// The build file of a crate: its name and what it uses, crates of the repository, copies of these, and libraries of the toolchain.
fn build_file(repository: &Repository, name: &str, uses: &[String], library: Library, copies: &[String]) -> String {
    let is_ours = |used: &String| copies.contains(used) || repository.crates().any(|of| of == used);
    let labels = uses.iter().map(|used| if is_ours(used) { format!("\"//{used}\"") } else { format!("\"@rattle//{used}\"") });
    let labels = labels.collect::<Vec<_>>().join(", ");
    let core = if library == Library::Core { ", no_std = True" } else { "" };
    format!("rattle_crate(name = \"{name}\", deps = [{labels}]{core})\n")
}

/// The text of a case program for a copy of its crate, as a module of a program.
fn of_copy(text: &str, of: &str, name: &str) -> String {
    let (mut turned, mut rest) = (String::new(), text);
    let path = format!("{of}::");
    while let Some(at) = rest.find(&path) {
        let is_whole = !rest[..at].ends_with(|mark: char| mark.is_alphanumeric() || mark == '_' || mark == ':');
        turned += &rest[..at];
        turned += if is_whole { name } else { of };
        rest = &rest[at + of.len()..];
    }
    format!("{turned}{rest}").replace("\nfn main() {", "\npub fn main() {")
}

/// What `rt try` prints of a program that ends by itself.
fn tried(folder: &Path, input: &[u8]) -> Result<String, String> {
    let mut program = Command::new("rt");
    program.arg("try").current_dir(folder);
    let left = running::run(&mut program, input, &BOUNDS).map_err(|why| format!("rt does not run: {why}"))?;
    let said = String::from_utf8_lossy(&left.stderr);
    match left.end {
        End::Status(status) if status.success() && said.lines().any(|line| line.starts_with(ENDED)) => {
            Ok(String::from_utf8_lossy(&left.stdout).into_owned())
        }
        End::Status(_) => Err(format!("its cases do not run to their end: {}", failure(&said))),
        End::TookTooLong => Err(String::from("its cases take too long")),
        End::PrintedTooMuch => Err(String::from("its cases print too much")),
    }
}

/// What `rt try` said of a run that did not end well: the first line of a fault or an error, or else the first line.
fn failure(said: &str) -> &str {
    let found = said.lines().find(|line| FAULTS.iter().any(|words| line.contains(words)));
    found.or(said.lines().next()).unwrap_or_default()
}

/// The outputs of several case programs, each after a line with its number.
fn outputs(printed: &str, count: usize) -> Result<Vec<String>, String> {
    let mut outputs: Vec<String> = Vec::new();
    for line in printed.split_inclusive('\n') {
        if line == format!("{BETWEEN}{}\n", outputs.len()) {
            outputs.push(String::new());
        } else {
            let last = outputs.last_mut().ok_or("its cases do not run to their end: something is printed before the first")?;
            *last += line;
        }
    }
    match outputs.len() == count {
        true => Ok(outputs),
        false => Err(String::from("its cases do not run to their end")),
    }
}

/// What an output shows: the first line that differs from the one that the right code prints.
fn shown(output: &str, expected: &str) -> Shown {
    let (mut lines, mut wanted) = (output.split_inclusive('\n'), expected.split_inclusive('\n'));
    loop {
        match (wanted.next(), lines.next()) {
            (None, None) => return Shown::Same,
            (expected, found) if expected == found => (),
            (expected, found) => {
                let line = |line: Option<&str>| String::from(line.unwrap_or_default().trim_end_matches('\n'));
                return Shown::Other { expected: line(expected), found: line(found) };
            }
        }
    }
}

#[cfg(test)]
mod tests {
    use super::*;
    use crate::seeding::harness;

    /// What the right code prints.
    const RIGHT: &str = "fits 84 1\nshare 0\nshare 1543 1\n";

    #[test]
    fn a_line_that_differs_is_shown() {
        let other = |expected: &str, found: &str| Shown::Other { expected: expected.into(), found: found.into() };
        assert_eq!(shown("fits 84 1\nshare 1\nshare 1543 2\n", RIGHT), other("share 0", "share 1"));
        assert_eq!(shown("fits 84 1\n", RIGHT), other("share 0", ""));
        assert_eq!(shown(&format!("{RIGHT}more\n"), RIGHT), other("", "more"));
        assert_eq!(shown("fits 84 1\nshare 0\nshare 1543 1", RIGHT), other("share 1543 1", "share 1543 1"));
        assert_eq!(shown(RIGHT, RIGHT), Shown::Same);
    }

    #[test]
    fn outputs_are_told_apart() {
        assert_eq!(outputs("== 0\na\n== 2\n== 1\n", 2), Ok(vec!["a\n== 2\n".into(), String::new()]));
        assert!(outputs("== 0\na\n", 2).is_err() && outputs("a\n== 0\n", 1).is_err());
    }

    #[test]
    fn a_case_program_is_turned_to_a_copy_of_its_crate() {
        let text =
            "use port::Call;\n\nfn case() {\n    port::refusals::open(port_laws::port::x, my_port::y);\n}\n\nfn main() {\n    case();\n}\n";
        let turned = "use port_3::Call;\n\nfn case() {\n    port_3::refusals::open(port_laws::port::x, my_port::y);\n}\n\npub fn main() {\n    case();\n}\n";
        assert_eq!(of_copy(text, "port", "port_3"), turned);
    }

    #[test]
    fn a_build_file_names_crates_of_ours_and_of_the_toolchain() {
        let repository = Repository::read(&harness().join("..")).expect("the list can be read");
        let uses = ["lists", "lists_0", "io"].map(String::from);
        let file = build_file(&repository, "cases", &uses, Library::Core, &["lists_0".into()]);
        assert_eq!(file, "rattle_crate(name = \"cases\", deps = [\"//lists\", \"//lists_0\", \"@rattle//io\"], no_std = True)\n");
        let file = build_file(&repository, "lists", &[], Library::Whole, &[]);
        assert_eq!(file, "rattle_crate(name = \"lists\", deps = [])\n");
    }

    #[test]
    fn a_run_that_does_not_end_is_told() {
        let said = "the end of the program's standard output:\n| 258\ninterpreter: fault kind=index-out-of-bounds in=octets::two_at at=lib.rt:22:21: an index \
                    at or past the length\nrun=fault proved=no\n";
        assert_eq!(
            failure(said),
            "interpreter: fault kind=index-out-of-bounds in=octets::two_at at=lib.rt:22:21: an index at or past the length"
        );
        let said = "src/main.rt:5:34: error[unknown-name]: cannot find value `nine` in crate `octets`\nrun=none proved=no\n";
        assert_eq!(failure(said), "src/main.rt:5:34: error[unknown-name]: cannot find value `nine` in crate `octets`");
        assert_eq!(failure("rt: there is no such crate\n"), "rt: there is no such crate");
    }
}
