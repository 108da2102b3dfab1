//! The program over the tests: plays those of the kinds, and the single tests, that are named, or all. It prints a line for each test, then how
//! many passed and failed as the last line. Status 0 says that all passed, 1 that one failed, 2 that a word of the command line is wrong.

use std::panic::{catch_unwind, AssertUnwindSafe};
use std::path::PathBuf;
use std::process::ExitCode;
use std::sync::Mutex;
use std::thread;
use std::time::Instant;

use crate::command_line::{REPLAY, WRONG_WORDS};
use crate::comparing::replayed;
use crate::comparing::sides::Sides;
use crate::comparing::test::{Run, Test, KINDS};
use crate::comparing::tests;

/// How the program is called.
const USAGE: &str =
    "usage: compare [lists] [records] [quick] [frames] [withdrawals] [registers] [counts] [lookups] [guarantee] [captures] [TEST..] [--seed N] \
[--size PERCENT, at least 10] [--first-failure] [--replay PROGRAM]";
/// The seed of a run that names none.
const DEFAULT_SEED: u64 = 1;
/// The size of a run that names none.
const DEFAULT_PERCENT: usize = 100;
/// How many tests run at a time.
const THREADS: usize = 2;
/// The least size: below it a test does not see enough of what it is for.
const LEAST_PERCENT: usize = 10;

/// What the command line asks for.
struct Wanted {
    tests: Vec<Test>,
    seed: u64,
    percent: usize,
    /// No further test is begun after one that failed.
    first_failure: bool,
    sides: Sides,
    /// The proved program `replay`.
    replay: PathBuf,
}

/// How far the tests are: the next one to begin, the next one to print, and the lines that wait for an earlier test's.
#[derive(Default)]
struct Progress {
    next: usize,
    printed: usize,
    waiting: Vec<Option<String>>,
    passed: usize,
    failed: usize,
}

/// Runs the tests that the words ask for with the sides as given.
pub fn run(words: &[String], sides: Sides) -> ExitCode {
    let Some(wanted) = wanted(words, sides) else {
        eprintln!("{USAGE}");
        return ExitCode::from(WRONG_WORDS);
    };
    let progress = run_all(&wanted);
    println!("{} passed, {} failed", progress.passed, progress.failed);
    ExitCode::from(u8::from(progress.failed > 0))
}

/// Reads the command line, or nothing if a word of it is wrong.
fn wanted(words: &[String], sides: Sides) -> Option<Wanted> {
    let (tests, replay) = (Vec::new(), replayed::proved());
    let mut wanted = Wanted { tests, seed: DEFAULT_SEED, percent: DEFAULT_PERCENT, first_failure: false, sides, replay };
    let mut words = words.iter();
    while let Some(word) = words.next() {
        match word.as_str() {
            "--seed" => wanted.seed = words.next()?.parse().ok()?,
            "--size" => wanted.percent = words.next()?.parse().ok().filter(|&percent| percent >= LEAST_PERCENT)?,
            "--first-failure" => wanted.first_failure = true,
            REPLAY => wanted.replay = words.next()?.into(),
            kind_or_test => wanted.tests.extend(named(kind_or_test)?),
        }
    }
    if wanted.tests.is_empty() {
        wanted.tests = tests::all();
    }
    Some(wanted)
}

/// The tests of a kind, or the one test, that a word names, if it names any.
pub fn named(word: &str) -> Option<Vec<Test>> {
    let kind = KINDS.iter().find(|(name, _)| *name == word).map(|(_, kind)| *kind);
    let tests: Vec<Test> = tests::all().into_iter().filter(|test| Some(test.kind) == kind || test.name == word).collect();
    Some(tests).filter(|tests| !tests.is_empty())
}

/// Runs the wanted tests on a few threads.
fn run_all(wanted: &Wanted) -> Progress {
    let progress = Mutex::new(Progress { waiting: vec![None; wanted.tests.len()], ..Progress::default() });
    thread::scope(|scope| {
        for _ in 0..THREADS {
            scope.spawn(|| run_some(wanted, &progress));
        }
    });
    progress.into_inner().expect("no thread panics with the progress in hand")
}

/// Runs one test after another that no thread has begun.
fn run_some(wanted: &Wanted, progress: &Mutex<Progress>) {
    let in_hand = || progress.lock().expect("no thread panics with the progress in hand");
    loop {
        let Some(number) = in_hand().begin(wanted.tests.len(), wanted.first_failure) else { return };
        let (line, passed) = run_one(&wanted.tests[number], wanted);
        in_hand().end(number, line, passed);
    }
}

impl Progress {
    /// The number of the test to begin, if there is one.
    fn begin(&mut self, tests: usize, first_failure: bool) -> Option<usize> {
        if self.next == tests || (first_failure && self.failed > 0) {
            return None;
        }
        self.next += 1;
        Some(self.next - 1)
    }

    /// Counts a test that ended, and prints the lines whose turn it is.
    fn end(&mut self, number: usize, line: String, passed: bool) {
        self.passed += usize::from(passed);
        self.failed += usize::from(!passed);
        self.waiting[number] = Some(line);
        while let Some(line) = self.waiting.get_mut(self.printed).and_then(Option::take) {
            println!("{line}");
            self.printed += 1;
        }
    }
}

/// Runs one test, its line and whether it passed; a panic is a failure.
fn run_one(test: &Test, wanted: &Wanted) -> (String, bool) {
    let mut run = Run::new(test.name, wanted.seed, wanted.percent, wanted.sides, &wanted.replay);
    let began = Instant::now();
    let ended = catch_unwind(AssertUnwindSafe(|| (test.body)(&mut run)));
    let failure = match ended {
        Ok(result) => result.err(),
        Err(_) => Some(format!("{}: a panic, after {} calls in all", run.place, run.calls)),
    };
    let told = format!("{} ({:.1} s)", run, began.elapsed().as_secs_f32());
    match failure {
        None => (format!("{}: ok: {told}", test.name), true),
        Some(text) => (format!("{}: FAILED: {told}\n  {text}", test.name), false),
    }
}
