//! The command line of the command: options, then the program in place of `replay` with its own arguments.

use std::path::PathBuf;
use std::time::Duration;

/// How the command is called.
pub const USAGE: &str = "usage: conformance/run [OPTION..] PROGRAM [ARGUMENT..], or with --list, --write or --sums in place of the program
  --only NAME      only the capture or the group of this name; it may stand several times
  --all            tell where each capture parts from the rule, not the first alone
  --first          stop after the first capture that parts
  --limit SECONDS  how long the program may take for one capture, 10 where it is not said
  --into FOLDER    where what is told of is written, the repository's target/conformance where it is not said
  --list           list the captures of each group, and run nothing
  --write          write the captures and what the rule prints of them into the folder, and run nothing
  --sums           print conformance/sums for the captures as they are now made, and run nothing";

/// How long a program may take for one capture where nothing is said.
const LIMIT: Duration = Duration::from_secs(10);

/// What the command is to do.
#[derive(Clone, Debug, PartialEq, Eq)]
pub enum Doing {
    /// Run a program, which is the first word, with its arguments.
    Run(Vec<String>),
    List,
    Write,
    Sums,
}

/// What a command line asks for.
#[derive(Clone, Debug, PartialEq, Eq)]
pub struct Asked {
    /// The captures and groups that are named, or none for all.
    pub only: Vec<String>,
    pub all: bool,
    pub first: bool,
    pub limit: Duration,
    /// The folder that is named, if one is.
    pub into: Option<PathBuf>,
    pub doing: Doing,
}

/// Reads a command line, or says what is wrong with it.
pub fn read(words: &[String]) -> Result<Asked, String> {
    let mut asked = Asked { only: Vec::new(), all: false, first: false, limit: LIMIT, into: None, doing: Doing::Run(Vec::new()) };
    let mut words = words.iter();
    while let Some(word) = words.next() {
        let mut follows = |what: &str| words.next().cloned().ok_or_else(|| format!("no {what} follows '{word}'"));
        match word.as_str() {
            "--only" => asked.only.push(follows("name")?),
            "--all" => asked.all = true,
            "--first" => asked.first = true,
            "--limit" => asked.limit = limit(&follows("number of seconds")?)?,
            "--into" => asked.into = Some(follows("folder")?.into()),
            "--list" => asked.doing = Doing::List,
            "--write" => asked.doing = Doing::Write,
            "--sums" => asked.doing = Doing::Sums,
            option if option.starts_with("--") => return Err(format!("'{option}' is no option")),
            _ => {
                let program = [word].into_iter().chain(words).cloned().collect();
                return with_program(asked, program);
            }
        }
    }
    match asked.doing {
        Doing::Run(_) => Err(String::from("no program is named")),
        _ => Ok(asked),
    }
}

/// What is asked for with a program at the end.
fn with_program(asked: Asked, program: Vec<String>) -> Result<Asked, String> {
    match asked.doing {
        Doing::Run(_) => Ok(Asked { doing: Doing::Run(program), ..asked }),
        _ => Err(format!("'{}' is one word too many: nothing is run", program[0])),
    }
}

/// A word as a number of seconds.
fn limit(word: &str) -> Result<Duration, String> {
    let seconds = word.parse().ok().and_then(|seconds| Duration::try_from_secs_f64(seconds).ok()).filter(|limit| !limit.is_zero());
    seconds.ok_or_else(|| format!("'{word}' is no number of seconds above 0"))
}
