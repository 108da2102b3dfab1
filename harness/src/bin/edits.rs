//! Sees that the must-fail edits are wrong programs. For each wrong program of the edit files: that the prover refuses each function and law that it
//! names, and that something shows it to be wrong, what the prover says or a run of the crate's cases on its code. And for each equivalent rewrite of
//! equivalent/, most of which the prover refuses too: that nothing shows it to be wrong. The prover checks each edit file over what `rt all check` keeps of the
//! right code in the crates' out/; what is not kept there it proves anew.
//!
//! `edits` judges all crates; `edits CRATE..` those that are named; with `--cases` before the names it has nothing proved, and runs the cases alone. It
//! prints what shows each wrong program to be wrong, and leaves what the prover said of each edit file in target/edits. The last line is the total.

use std::collections::BTreeMap;
use std::path::{Path, PathBuf};
use std::process::{self, ExitCode};
use std::{env, fs};

use harness::command_line;
use harness::edits::judging::{self, Tried, NOTHING};
use harness::edits::proving::{Prover, LOG};
use harness::edits::reading::{self, EditFile, Evidence, WrongProgram};
use harness::edits::repository::Repository;
use harness::edits::trying::{self, Shown};
use harness::seeding::{self, closed, copy_all, harness, removed, Edit};

/// The word that asks for the cases alone.
const CASES: &str = "--cases";

/// What is asked for: the repository, its crates that are judged, whether the prover is asked, and the folder in which crates are laid out.
struct Asked {
    repository: Repository,
    crates: Vec<String>,
    proves: bool,
    room: Room,
}

/// A folder outside the repository, in which `rt ci` takes no crates but its own; it is removed at the end.
struct Room(PathBuf);

/// The edit files of a sort: wrong programs, or equivalent rewrites.
struct Sort {
    name: &'static str,
    files: Vec<EditFile>,
}

/// A wrong program, its edit file, and its place in that.
#[derive(Clone, Copy)]
struct Wrong<'a> {
    file: &'a EditFile,
    number: usize,
    program: &'a WrongProgram,
}

/// What the runs of cases show of the wrong programs, and of the right code where the wrong program is none.
type ByCases<'a> = BTreeMap<(&'a str, Option<(&'a str, usize)>), Result<Shown, String>>;

/// What the prover was asked: of an edit file, or of the right code of a crate, and why it said nothing.
type Unproved<'a> = BTreeMap<(&'a str, Option<&'a str>), String>;

/// How many were as they must be, and how many were not.
#[derive(Default)]
struct Total {
    passed: usize,
    failed: usize,
}

impl Drop for Room {
    fn drop(&mut self) {
        if let Err(why) = removed(&self.0) {
            println!("{why}");
        }
    }
}

fn main() -> ExitCode {
    let total = asked(&command_line::words()).and_then(|asked| {
        let prover = Prover::new(&asked.repository, asked.room.0.join("checks"));
        let mut total = Total::default();
        wrong_programs(&asked, &prover, &mut total)?;
        if asked.proves {
            equivalent(&asked, &prover, &mut total)?;
        }
        Ok(total)
    });
    match total {
        Ok(Total { passed, failed }) => closed(passed, failed, ""),
        Err(why) => closed(0, 1, &why),
    }
}

/// Reads the command line.
fn asked(words: &[String]) -> Result<Asked, String> {
    let repository = Repository::read(&harness().join(".."))?;
    let proves = words.first().map_or(true, |word| word != CASES);
    let names = if proves { words } else { &words[1..] };
    if let Some(name) = names.iter().find(|name| !repository.crates().any(|of| of == *name)) {
        return Err(format!("'{name}' is no crate; usage: edits [{CASES}] [CRATE..]"));
    }
    let all = names.is_empty();
    let crates = repository.crates().filter(|of| all || names.iter().any(|name| name == of)).map(String::from).collect();
    let room = Room(env::temp_dir().join(format!("edits-{}", process::id())));
    Ok(Asked { repository, crates, proves, room })
}

/// Judges the wrong programs of the crates.
fn wrong_programs(asked: &Asked, prover: &Prover, total: &mut Total) -> Result<(), String> {
    let sort = read_all(asked, "wrong", |of| asked.repository.edits(of), total)?;
    let wrong = programs(&sort.files, |program| asked.proves || program.evidence == Evidence::Cases);
    let unproved = if asked.proves { prove(asked, prover, &sort) } else { Unproved::new() };
    let by_cases = run_cases(asked, &wrong);
    let shown = seeding::tried(&wrong, |wrong| judge(asked, prover, &unproved, &by_cases, *wrong));
    total.passed += shown;
    total.failed += wrong.len() - shown;
    Ok(())
}

/// Judges the equivalent rewrites of the crates.
fn equivalent(asked: &Asked, prover: &Prover, total: &mut Total) -> Result<(), String> {
    let sort = read_all(asked, "equivalent", |of| harness().join("equivalent").join(of), total)?;
    let rewrites = programs(&sort.files, |_| true);
    let unproved = prove(asked, prover, &sort);
    let by_cases = run_cases(asked, &rewrites);
    let unshown = seeding::tried(&rewrites, |rewrite| judge_equivalent(asked, prover, &unproved, &by_cases, *rewrite));
    total.passed += unshown;
    total.failed += rewrites.len() - unshown;
    Ok(())
}

/// The edit files in a folder of each crate; each that cannot be read is told, and is a failure.
fn read_all(asked: &Asked, name: &'static str, folder: impl Fn(&str) -> PathBuf, total: &mut Total) -> Result<Sort, String> {
    let mut files = Vec::new();
    for of in &asked.crates {
        for path in reading::paths(&folder(of))? {
            match reading::read(of, &path) {
                Ok(file) => files.push(file),
                Err(why) => {
                    println!("{why}");
                    total.failed += 1;
                }
            }
        }
    }
    Ok(Sort { name, files })
}

/// The wrong programs of edit files that are asked for.
fn programs(files: &[EditFile], is_asked: impl Fn(&WrongProgram) -> bool) -> Vec<Wrong<'_>> {
    let of_file = |file: &'_ EditFile| file.programs.len();
    let numbered = files.iter().flat_map(|file| (0..of_file(file)).map(move |number| (file, number)));
    numbered.map(|(file, number)| Wrong { file, number, program: &file.programs[number] }).filter(|wrong| is_asked(wrong.program)).collect()
}

/// The copy of a crate in which the prover tries an edit file, or the right code.
fn copy(asked: &Asked, sort: &str, of: &str, label: Option<&str>) -> PathBuf {
    asked.room.0.join(sort).join(of).join(label.unwrap_or("right"))
}

/// Has the prover try the edit files, and the right code of their crates; those of which it says nothing, with what is told of them.
fn prove<'a>(asked: &Asked, prover: &Prover, sort: &'a Sort) -> Unproved<'a> {
    let mut trials: Vec<(&str, Option<&EditFile>)> = sort.files.iter().map(|file| (file.of.as_str(), Some(file))).collect();
    let mut right: Vec<(&str, Option<&EditFile>)> = trials.iter().map(|(of, _)| (*of, None)).collect();
    right.dedup();
    trials.splice(0..0, right);
    let said = seeding::of_each(&trials, |(of, file)| {
        let label = file.map(|file| file.label.as_str());
        let copy = copy(asked, sort.name, of, label);
        let said = match file {
            Some(file) => prover.check(of, edits(file), &copy),
            None => prover.proves(of, &copy),
        };
        said.and_then(|()| kept(asked, sort.name, of, label.unwrap_or("right"), &copy)).err().map(|why| ((*of, label), why))
    });
    let unproved: Unproved = said.into_iter().flatten().collect();
    for ((of, _), why) in unproved.iter().filter(|((_, label), _)| label.is_none()) {
        println!("{of}: {why}");
    }
    unproved
}

/// Keeps what the prover said where a person finds it.
fn kept(asked: &Asked, sort: &str, of: &str, label: &str, copy: &Path) -> Result<(), String> {
    copy_all(&copy.join(LOG), &asked.repository.folder.join("target/edits").join(sort).join(of).join(format!("{label}.log")))
}

/// The edits of a file's wrong programs, one after the other.
fn edits(file: &EditFile) -> impl Iterator<Item = &Edit> {
    file.programs.iter().flat_map(|program| &program.edits)
}

/// Runs the cases of the wrong programs that they must show to be wrong, and of the right code of their crates.
fn run_cases<'a>(asked: &Asked, wrong: &[Wrong<'a>]) -> ByCases<'a> {
    let mut of_crates: BTreeMap<&str, Vec<Option<Wrong>>> = BTreeMap::new();
    for wrong in wrong.iter().filter(|wrong| wrong.program.evidence == Evidence::Cases) {
        of_crates.entry(&wrong.file.of).or_insert_with(|| vec![None]).push(Some(*wrong));
    }
    let split =
        |(of, all): (&'a str, Vec<Option<Wrong<'a>>>)| all.chunks(trying::AT_ONCE).map(|some| (of, some.to_vec())).collect::<Vec<_>>();
    let runs: Vec<(&str, Vec<Option<Wrong>>)> = of_crates.into_iter().flat_map(split).collect();
    let numbered: Vec<(usize, &(&str, Vec<Option<Wrong>>))> = runs.iter().enumerate().collect();
    let shown = seeding::of_each(&numbered, |(number, (of, some))| {
        let edits: Vec<&[Edit]> = some.iter().map(|wrong| wrong.map_or(&[][..], |wrong| &wrong.program.edits)).collect();
        let folder = asked.room.0.join("cases").join(number.to_string());
        let shown = trying::run(&asked.repository, of, &edits, &folder);
        // What is not removed now is removed at the end.
        let _ = fs::remove_dir_all(&folder);
        shown
    });
    let keyed = |(of, some): &(&'a str, Vec<Option<Wrong<'a>>>)| some.iter().map(|wrong| key(of, *wrong)).collect::<Vec<_>>();
    runs.iter().flat_map(keyed).zip(shown.into_iter().flatten()).collect()
}

/// Where the cases of a wrong program, or of the right code of a crate, are kept.
fn key<'a>(of: &'a str, wrong: Option<Wrong<'a>>) -> (&'a str, Option<(&'a str, usize)>) {
    (of, wrong.map(|wrong| (wrong.file.label.as_str(), wrong.number)))
}

/// Judges one wrong program: whether it is refused and shown to be wrong, and what is told of it.
fn judge(asked: &Asked, prover: &Prover, unproved: &Unproved, by_cases: &ByCases, wrong: Wrong) -> (bool, String) {
    let refused_and_shown = |tried: &Tried, program: &WrongProgram| tried.refused(program).and_then(|()| tried.shown(program));
    let by_prover = match asked.proves {
        true => by_prover(asked, prover, "wrong", unproved, wrong, refused_and_shown),
        false => Ok(judging::Shown::ByCases),
    };
    let shown = by_prover.and_then(|shown| match shown {
        judging::Shown::Wrong(words) => Ok(words),
        judging::Shown::ByCases => match of_cases(by_cases, wrong)? {
            Shown::Same => Err(format!("{NOTHING}: its cases print what they must")),
            other => Ok(told(other)),
        },
    });
    verdict(wrong, shown)
}

/// Judges one equivalent rewrite: whether it is refused or proved, and nothing shows it to be wrong, and what is told of it.
fn judge_equivalent(asked: &Asked, prover: &Prover, unproved: &Unproved, by_cases: &ByCases, rewrite: Wrong) -> (bool, String) {
    let unshown = by_prover(asked, prover, "equivalent", unproved, rewrite, |tried, program| {
        let refused = tried.refused_or_proved(program)?;
        match tried.shown(program) {
            Ok(judging::Shown::Wrong(words)) => Err(format!("an equivalent rewrite is shown to be wrong: {words}")),
            Err(why) => Ok(format!("equivalent, and {refused}: {why}")),
            Ok(judging::Shown::ByCases) => match of_cases(by_cases, rewrite)? {
                Shown::Same => Ok(format!("equivalent, and {refused}: its cases print what they must")),
                other => Err(format!("an equivalent rewrite is shown to be wrong: {}", told(other))),
            },
        }
    });
    verdict(rewrite, unshown)
}

/// Whether something is as it must be, and what is told of it.
fn verdict(wrong: Wrong, shown: Result<String, String>) -> (bool, String) {
    let word = if shown.is_ok() { "ok" } else { "FAILED" };
    let words = wrong.program.words.trim_end_matches('.');
    (shown.is_ok(), format!("{}/{}: {word}: {words}: {}", wrong.file.of, wrong.file.label, shown.unwrap_or_else(|why| why)))
}

/// What is made of what the prover says of a wrong program: together with the others of its file, or else alone. One that changes what another calls
/// keeps the prover from trying the other.
fn by_prover<R>(
    asked: &Asked,
    prover: &Prover,
    sort: &str,
    unproved: &Unproved,
    wrong: Wrong,
    made: impl Fn(&Tried, &WrongProgram) -> Result<R, String>,
) -> Result<R, String> {
    let (of, label) = (wrong.file.of.as_str(), wrong.file.label.as_str());
    said_of(unproved, wrong)?;
    let of_copy = |copy: &Path| Tried::read(of, copy).and_then(|tried| made(&tried, wrong.program));
    let together = of_copy(&copy(asked, sort, of, Some(label)));
    if together.is_ok() || wrong.file.programs.len() == 1 {
        return together;
    }
    let label = format!("{label}.{}", wrong.number);
    let alone = copy(asked, "alone", of, Some(&label));
    prover.check(of, &wrong.program.edits, &alone).and_then(|()| kept(asked, "alone", of, &label, &alone))?;
    of_copy(&alone)
}

/// That the prover said something of a wrong program, and that it proves the right code.
fn said_of(unproved: &Unproved, wrong: Wrong) -> Result<(), String> {
    let (of, label) = (wrong.file.of.as_str(), wrong.file.label.as_str());
    if unproved.contains_key(&(of, None)) {
        return Err(format!("{of} is not proved as it stands"));
    }
    unproved.get(&(of, Some(label))).map_or(Ok(()), |why| Err(why.clone()))
}

/// What a run of the cases shows of a wrong program, where they hold for the right code.
fn of_cases<'b>(by_cases: &'b ByCases, wrong: Wrong<'b>) -> Result<&'b Shown, String> {
    let of = wrong.file.of.as_str();
    let shown = |wrong| {
        by_cases.get(&key(of, wrong)).map_or(Err(String::from("its cases were not run")), |shown| shown.as_ref().map_err(String::clone))
    };
    match shown(None) {
        Ok(Shown::Same) => shown(Some(wrong)),
        other => Err(format!("the cases do not hold for the right code: {}", other.map_or_else(|why| why, told))),
    }
}

/// What a run of cases shows, in words.
fn told(shown: &Shown) -> String {
    match shown {
        Shown::Same => String::from("its cases print what they must"),
        Shown::Other { expected, found } => format!("its cases print '{found}' and not '{expected}'"),
    }
}
