//! The trial of a program: it is run over captures one after another, what agrees and what parts is counted, and the first that parts, or each, is
//! told.

use std::io::{self, Write};
use std::process::Command;

use crate::command_line::WRONG_WORDS;
use crate::conformance::difference::Difference;
use crate::conformance::judging::{judged, Verdict};
use crate::conformance::report::{report, Program};
use crate::conformance::set::{self, captures, Capture, Entry};
use crate::conformance::tool::{tell, Failure, ALL_AGREE, ONE_PARTS};
use crate::running::{self, Bounds, End, Left};

/// How many octets a program may print beyond what is due before it is ended.
const SURPLUS_OCTETS: usize = 65_536;
/// How many octets are kept of what it writes to standard error.
const ERROR_OCTETS: usize = 4_096;
/// After so many captures for which it took too long a program is not run again.
const MOST_TOO_LONG: usize = 3;

/// The trial of a program.
pub struct Trial<'a> {
    program: Program<'a>,
    /// Whether each capture that parts is told, or the first alone.
    tells_all: bool,
    /// Whether it stops after the first that parts.
    stops_at_first: bool,
    output: &'a mut dyn Write,
    passed: usize,
    failed: usize,
    /// For how many captures the program took too long.
    too_long: usize,
    /// The report of the first capture that parts, in lines.
    first: Vec<String>,
    /// The captures about which the program agrees with a status other than 0.
    with_status: Vec<String>,
}

impl<'a> Trial<'a> {
    /// A trial that is still to begin.
    pub fn new(program: Program<'a>, tells_all: bool, stops_at_first: bool, output: &'a mut dyn Write) -> Trial<'a> {
        let (first, with_status) = (Vec::new(), Vec::new());
        Trial { program, tells_all, stops_at_first, output, passed: 0, failed: 0, too_long: 0, first, with_status }
    }

    /// Runs the program over the captures, group after group, and tells how it went; the status.
    pub fn run(mut self, entries: &[Entry]) -> Result<u8, Failure> {
        tell(self.output, &set::named());
        for group in set::by_group(entries) {
            let (passed, failed) = (self.passed, self.failed);
            self.group(group)?;
            let (passed, failed) = (self.passed - passed, self.failed - failed);
            if passed + failed > 0 {
                tell(self.output, &format!("{}: {}", group[0].group, counted(passed, failed)));
            }
        }
        self.close(entries.len());
        Ok(if self.failed > 0 { ONE_PARTS } else { ALL_AGREE })
    }

    /// Runs the program over the captures of a group, until it is to be run no more.
    fn group(&mut self, entries: &[Entry]) -> Result<(), Failure> {
        for entry in entries {
            if self.stops() {
                break;
            }
            let capture = entry.capture().map_err(|why| Failure::of_the_set(&why))?;
            let left = self.left(&capture).map_err(|why| self.not_started(&why))?;
            self.count(entry, &capture, &left);
        }
        Ok(())
    }

    /// Whether no further capture is to be run.
    fn stops(&self) -> bool {
        self.too_long == MOST_TOO_LONG || (self.stops_at_first && self.failed > 0)
    }

    /// What the program leaves of a capture.
    fn left(&self, capture: &Capture) -> io::Result<Left> {
        let bounds = Bounds { time: self.program.limit, stdout: capture.output.len() + SURPLUS_OCTETS, stderr: ERROR_OCTETS };
        running::run(Command::new(&self.program.words[0]).args(&self.program.words[1..]), &capture.octets, &bounds)
    }

    /// The program cannot be started.
    fn not_started(&self, why: &io::Error) -> Failure {
        let program = &self.program.words[0];
        let hint = match why.kind() {
            io::ErrorKind::NotFound if !program.contains('/') => format!("; a program in this folder is ./{program}"),
            io::ErrorKind::PermissionDenied => String::from("; it must be a program, with leave to run it"),
            _ => String::new(),
        };
        Failure { status: WRONG_WORDS, what: format!("the program '{program}' cannot be started: {why}{hint}") }
    }

    /// Counts a capture by what the program left of it, and reports the first that parts, or each.
    fn count(&mut self, entry: &Entry, capture: &Capture, left: &Left) {
        self.too_long += usize::from(left.end == End::TookTooLong);
        match judged(left, &capture.output) {
            Verdict::Agrees => self.passed += 1,
            Verdict::AgreesWithStatus(_) => {
                self.passed += 1;
                self.with_status.push(entry.name.clone());
            }
            Verdict::Parts(difference) => self.parts(entry, capture, left, difference),
        }
    }

    /// Counts a capture that parts, and reports it where it is to be told.
    fn parts(&mut self, entry: &Entry, capture: &Capture, left: &Left, difference: Option<Difference>) {
        self.failed += 1;
        if self.tells_all {
            let lines = report(entry, capture, left, difference, &self.program);
            tell(self.output, &lines.join("\n"));
        } else if self.failed == 1 {
            self.first = report(entry, capture, left, difference, &self.program);
        }
    }

    /// Tells the first that parts, why captures were not run, and the totals.
    fn close(&mut self, all: usize) {
        let mut lines = std::mem::take(&mut self.first);
        if let Some(first) = self.with_status.first() {
            let of = captures(self.with_status.len());
            lines.push(format!(
                "note: of {of}, first of {first}, the program prints what the rule does and ends with a status other than 0"
            ));
        }
        let not_run = all - self.passed - self.failed;
        if self.too_long == MOST_TOO_LONG && not_run > 0 {
            lines.push(format!("the program took too long for {}, and was not run again", captures(MOST_TOO_LONG)));
        }
        let untold = if not_run > 0 { format!(", {not_run} were not run") } else { String::new() };
        lines.push(format!("of {} {}{untold}", captures(all), counted(self.passed, self.failed)));
        lines.push(format!("{} passed, {} failed", self.passed, self.failed));
        tell(self.output, &lines.join("\n"));
    }
}

/// How many captures agree and how many part.
fn counted(agree: usize, part: usize) -> String {
    match part {
        0 => format!("{agree} agree with the rule"),
        1 => format!("{agree} agree with the rule, 1 parts from it"),
        part => format!("{agree} agree with the rule, {part} part from it"),
    }
}
