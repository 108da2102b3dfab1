//! What the prover said of an edited crate: its errors, each with the file and the declaration that it is of, its notes on declarations, and what it
//! says of each function.

/// What an error says that only follows from another.
const FOLLOWS: &str = "was not admitted";
/// What an error says where a proof speaks of what the code or the definitions have not: it names a goal or a name that there is not, or a field that a
/// step has not.
const NO_STEP: [&str; 3] = ["that can be named from here", "has no field", "is not in scope"];
/// What an error says where a proof gives one goal for another.
const OTHER_GOAL: [&str; 2] = ["expected type `goal.", "but this has type `goal."];
/// What stands before the words of an error and of a note.
const ERROR: &str = ": error: ";
const NOTE: &str = ": note: ";
/// What is said of a goal that no proof answers and no search closes, before its name, and where it fails at some values.
const OPEN: &str = ": it is not proved that ";
const NAMED: &str = " (`";
const FALSE: &str = "the facts known there allow values at which this goal is false";
/// What is said of a function that is not proved: that it has no proof, for a goal of its own or for a callee, and that its proof is refused.
const NO_PROOF: &str = "no proof: ";
const NOT_PROVED: &str = "not proved";
const OF_ITS_OWN: &str = "`search` did not prove";
const FOR_A_CALLEE: &str = "it calls";
/// The files of a function's proof.
const PROOFS: [&str; 3] = ["Answers", "Invariants", "Proof"];
/// What the prover says last of a crate that it proves.
const PROVED: &str = "logic=proved ";
/// The folders of a crate.
const PARTS: [&str; 3] = ["/proofs/", "/specs/", "/src/"];

/// An error: the file of the crate that it is in, the declaration that it is of, and its words on one line.
#[derive(Debug, PartialEq, Eq)]
pub struct Error {
    pub file: String,
    pub name: String,
    pub words: String,
}

/// A goal that no proof answers and no search closes: the file of the code, the line, the goal's name, and whether it is seen to fail at some values.
#[derive(Debug, PartialEq, Eq)]
pub struct OpenGoal {
    pub file: String,
    pub line: usize,
    pub name: String,
    pub is_false: bool,
}

/// What the prover said of an edited crate.
#[derive(Default)]
pub struct Log {
    errors: Vec<Error>,
    notes: Vec<String>,
    functions: Vec<String>,
    open: Vec<OpenGoal>,
    is_proved: bool,
}

/// What the lines that are set in belong to.
enum Last {
    Error,
    Note,
    Neither,
}

impl Log {
    /// Reads a log.
    pub fn read(text: &str) -> Log {
        let (mut log, mut last) = (Log::default(), Last::Neither);
        for line in text.lines() {
            match (&last, line.strip_prefix("  ")) {
                (Last::Error, Some(more)) => log.errors.last_mut().expect("there is an error").words += &format!(" {}", more.trim()),
                (Last::Note, Some(more)) => *log.notes.last_mut().expect("there is a note") += &format!(" {}", more.trim()),
                (Last::Neither, Some(_)) => (),
                (_, None) => last = log.take(line),
            }
        }
        log
    }

    /// Takes a line that is not set in.
    fn take(&mut self, line: &str) -> Last {
        if let Some((place, said)) = line.split_once(ERROR) {
            self.errors.push(error(place, said));
            return Last::Error;
        }
        if let Some((_, said)) = line.split_once(NOTE) {
            self.notes.push(said.into());
            return Last::Note;
        }
        if line.starts_with("fn ") {
            self.functions.push(line.into());
        }
        self.open.extend(line.strip_prefix("note: ").and_then(open_goal));
        self.is_proved |= line.starts_with(PROVED);
        Last::Neither
    }

    /// Whether a function or law of a crate is refused on its own account: a function by an error in its own proof files, or because a goal of its own has no
    /// proof; a law by an error of its own. An error that only follows from another does not count, nor does one that only says that the proof no longer
    /// fits the code.
    pub fn refuses(&self, of: &str, name: &str) -> bool {
        let own_goal = |said: &str| said.contains(OF_ITS_OWN) || !said.contains(FOR_A_CALLEE);
        self.own(name).next().is_some() || self.said_of(of, name).any(|said| said.starts_with(NO_PROOF) && own_goal(said))
    }

    /// Whether a function's proof is refused as a whole, so that an open goal in its code is one that its proof does not answer.
    pub fn is_unproved(&self, of: &str, name: &str) -> bool {
        self.said_of(of, name).any(|said| said.starts_with(NOT_PROVED))
    }

    /// What is said of a function.
    fn said_of<'a>(&'a self, of: &str, name: &str) -> impl Iterator<Item = &'a str> {
        let begins = format!("fn {of}::{name}: ");
        self.functions.iter().filter_map(move |line| line.strip_prefix(&begins))
    }

    /// The goals that are open.
    pub fn open(&self) -> &[OpenGoal] {
        &self.open
    }

    /// Whether the crate is proved.
    pub fn is_proved(&self) -> bool {
        self.is_proved
    }

    /// The errors of a function or law by which it is refused: they follow from no other, and a fact fails in each.
    pub fn own<'a>(&'a self, name: &'a str) -> impl Iterator<Item = &'a Error> {
        self.first(name).filter(|error| !error.is_misfit())
    }

    /// Whether a function or law has errors that follow from no other, and all of them only say that its proof no longer fits the code.
    pub fn only_misfits(&self, name: &str) -> bool {
        self.first(name).next().is_some() && self.own(name).next().is_none()
    }

    /// The errors of a function or law that do not follow from another.
    fn first<'a>(&'a self, name: &'a str) -> impl Iterator<Item = &'a Error> {
        let files = PROOFS.map(|part| format!("proofs/{}/{part}.antt", name.replace("::", "/")));
        self.errors.iter().filter(move |error| (files.contains(&error.file) || error.name == name) && !error.words.contains(FOLLOWS))
    }

    /// Whether there is any error of a declaration, one that follows from another too.
    pub fn has_error_of(&self, name: &str) -> bool {
        self.errors.iter().any(|error| error.name == name)
    }

    /// Whether the prover accepted every definition and went on to a proof, which it refused.
    pub fn passed_the_definitions(&self) -> bool {
        self.errors.iter().any(|error| error.file.starts_with("proofs/"))
            && !self.errors.iter().any(|error| error.file.starts_with("specs/"))
    }

    /// Whether the prover has advice on a declaration: something that it did not compute may stand in the way.
    pub fn advises_on(&self, name: &str) -> bool {
        let on = format!("(in `{name}`)");
        self.notes.iter().any(|note| note.contains(&on))
    }
}

impl Error {
    /// Whether it only says that the proof no longer fits the code: the proof speaks of what is not there, or answers one goal with another.
    fn is_misfit(&self) -> bool {
        NO_STEP.iter().any(|words| self.words.contains(words)) || OTHER_GOAL.iter().all(|words| self.words.contains(words))
    }
}

/// The goal of a note 'FILE:LINE:COLUMN: it is not proved that WHAT (`GOAL`)'.
fn open_goal(note: &str) -> Option<OpenGoal> {
    let (place, said) = note.split_once(OPEN)?;
    let mut steps = place.rsplitn(3, ':');
    let line = steps.nth(1)?.parse().ok()?;
    let name = said.rsplit_once(NAMED)?.1.split('`').next()?;
    Some(OpenGoal { file: steps.next()?.into(), line, name: name.into(), is_false: said.contains(FALSE) })
}

/// The error of a place and what is said there.
fn error(place: &str, said: &str) -> Error {
    let file = place.rsplitn(3, ':').last().unwrap_or_default();
    let file = PARTS.iter().find_map(|part| file.rfind(part).map(|at| &file[at + 1..])).unwrap_or(file);
    let named = said.strip_prefix('`').and_then(|rest| rest.split_once("`: "));
    let (name, words) = named.unwrap_or(("", said));
    Error { file: file.into(), name: name.into(), words: words.into() }
}

#[cfg(test)]
mod tests {
    use super::*;

    /// A part of the log of an edit in `ranges`.
    const TEXT: &str = "\
rt: chose --jobs 1 for ranges
checked ranges::within, 1 of 4
./proofs/within/Answers.antt:13:15: error: `returns-2`: computed as far as they go, the two types differ
  (expected) and the other has `c.before.args.number` (found)
./proofs/within/Answers.antt:12:1: note: the two sides may simply be different (in `returns-2`)
./proofs/within/Answers.antt:16:43: error: `returns-3`: `returns-2` was not admitted, so this cannot be checked
note: src/lib.rt:60:1: it is not proved that what the function ensures holds when it returns (`returns`); the facts known there allow values at which this \
goal is false
note: src/lib.rt:70:1: it is not proved that the sum fits its type (at a range `..=n`, `n + 1`) (`returns-2`)
fn ranges::permitted_fits: no proof: expected answers in ./proofs/permitted_fits/Answers.antt; `search` did not prove `returns`
fn ranges::within: not proved; it calls `ranges::least`, which is not proved
fn ranges::charge_fits: no proof: it calls `ranges::within`, which is not proved
./proofs/RangeLaws.antt:9:1: error: `within_bounds`: `both` was not admitted
logic=not-proved
rt: rt check --only ranges::within checks that function and what it calls, and not the rest
";

    #[test]
    fn what_is_refused_on_its_own_account_is_told_from_what_follows() {
        let log = Log::read(TEXT);
        assert!(["within", "permitted_fits", "returns-2"].iter().all(|name| log.refuses("ranges", name)));
        assert!(["charge_fits", "returns-3", "within_bounds", "share", "permitted"].iter().all(|name| !log.refuses("ranges", name)));
        assert!(!log.refuses("header", "permitted_fits"));
        assert!(log.has_error_of("within_bounds") && !log.has_error_of("within"));
        assert!(log.is_unproved("ranges", "within") && !log.is_unproved("ranges", "permitted_fits"));
        let goal = |line, name: &str, is_false| OpenGoal { file: "src/lib.rt".into(), line, name: name.into(), is_false };
        assert_eq!(log.open(), [goal(60, "returns", true), goal(70, "returns-2", false)]);
        assert!(!log.is_proved() && Log::read("logic=proved functions=3 sum=dac8\n").is_proved());
    }

    /// Parts of logs of edits that take a step out of a function, or add one, so that its proof no longer fits: of `transmit` the proof names a goal that
    /// there is not, of `tick` a step has not the field that the proof asks, of `send` a goal is answered with another, and `drop` cites a name that is gone;
    /// of `join` a fact fails too.
    const MISFITS: &str = "\
./proofs/transmit/Answers.antt:24:17: error: `send-requires-2`: `goal.send-requires-2`: module `Rattle.a.proofs.transmit.Goals` has no `send-requires-2`
  that can be named from here
./proofs/tick/Answers.antt:31:9: error: `returns`: record `Rattle.a.proofs.tick.Lts.After-put-queue2` has no field `sent`
  the fields that can be named here are `before`, `args`, `well_formed`, `ranges`, `requires`
./proofs/send/Answers.antt:45:5: error: `returns`: computed as far as they go, the two types first differ where one has `After-move-to` (expected)
  and the other has `After-queue-at` (found)
  expected type `goal.cast-granted-2`,
  but this has type `goal.granted-requires`
./proofs/drop/Answers.antt:45:5: error: `returns`: `dropped` is not in scope
./proofs/join/Answers.antt:27:9: error: `returns`: record `Rattle.a.proofs.join.Lts.After-move-to` has no field `args`
./proofs/join/Answers.antt:35:9: error: `joined-requires`: `search`: no proof of `Asked c.args.queue` was found
./proofs/close/Answers.antt:12:9: error: `returns`: computed as far as they go, the two types differ only where one has `20` (expected) and the other has
  `14` (found)
  expected type `goal.returns`, but this has type `Path ℕ 14 14`
fn a::close: not proved
fn a::bare: no proof: expected answers in ./proofs/bare/Answers.antt; `search` did not prove `returns`
";

    #[test]
    fn an_error_that_only_says_that_the_proof_no_longer_fits_is_no_refusal() {
        let log = Log::read(MISFITS);
        for name in ["transmit", "tick", "send", "drop"] {
            assert!(!log.refuses("a", name) && log.only_misfits(name), "{name} is taken for refused");
        }
        for name in ["join", "close", "bare"] {
            assert!(log.refuses("a", name) && !log.only_misfits(name), "{name} is not taken for refused");
        }
        assert_eq!(log.own("join").map(|error| error.name.as_str()).collect::<Vec<_>>(), ["joined-requires"]);
        assert!(!log.only_misfits("other"));
    }

    #[test]
    fn an_error_is_read_with_its_file_and_all_its_words() {
        let log = Log::read(TEXT);
        let words = "computed as far as they go, the two types differ (expected) and the other has `c.before.args.number` (found)";
        let error = Error { file: "proofs/within/Answers.antt".into(), name: "returns-2".into(), words: words.into() };
        assert_eq!(log.own("within").collect::<Vec<_>>(), [&error]);
        assert!(log.advises_on("returns-2") && !log.advises_on("returns"));
    }

    #[test]
    fn an_error_in_a_definition_shows_that_the_proofs_were_not_reached() {
        assert!(Log::read(TEXT).passed_the_definitions());
        let text = format!("./specs/Ranges.antt:18:17: error: expected a binder\n{TEXT}");
        assert!(!Log::read(&text).passed_the_definitions());
        assert!(!Log::read("fn ranges::within: no proof\nlogic=not-proved\n").passed_the_definitions());
    }
}
