//! One capture on two sides: the proved program `replay` as a process of its own, and the outside program's `replay`, compared octet for octet.

use std::fs::File;
use std::io;
use std::path::{Path, PathBuf};
use std::process::{Child, Command, Output, Stdio};
use std::time::Duration;

use crate::capture::reading;
use crate::comparing::coverage::Seen;
use crate::comparing::test::Run;
use crate::running::{self, Bounds, End, Left};

/// How many lines of a capture's text a report tells at most.
const TOLD_LINES: usize = 40;
/// How long a program may run; it may print as much as it will.
const BOUNDS: Bounds = Bounds { time: Duration::from_secs(60), stdout: usize::MAX, stderr: usize::MAX };

/// The proved program where `rt ci` and `rt run` leave it.
pub fn proved() -> PathBuf {
    Path::new(env!("CARGO_MANIFEST_DIR")).join("../crates/replay/out/replay")
}

/// What a program prints of a capture that is written to its standard input in these pieces.
fn printed(program: &mut Command, pieces: &[&[u8]]) -> io::Result<Output> {
    in_time(running::run_in_pieces(program, pieces, &BOUNDS)?)
}

/// What a program prints of a capture that its standard input is the file of.
pub fn printed_of_file(program: &mut Command, path: &Path) -> io::Result<Output> {
    ended(program.stdin(File::open(path)?).stdout(Stdio::piped()).stderr(Stdio::piped()).spawn()?)
}

/// What a started program prints to its pipes, and its status.
fn ended(child: Child) -> io::Result<Output> {
    in_time(running::ended(child, Vec::new(), &BOUNDS)?)
}

/// What a program left that ended by itself; one that did not is an error.
fn in_time(left: Left) -> io::Result<Output> {
    match left.end {
        End::Status(status) => Ok(Output { status, stdout: left.stdout, stderr: left.stderr }),
        _ => Err(io::Error::new(io::ErrorKind::TimedOut, format!("does not end and close its pipes within {:?}", BOUNDS.time))),
    }
}

/// Fails unless a program ended with status 0, wrote nothing to standard error, and printed just the text.
pub fn judged(output: &Output, text: &str) -> Result<(), String> {
    if output.status.code() != Some(0) {
        return Err(format!("replay ends with {}", output.status));
    }
    if !output.stderr.is_empty() {
        return Err(format!("replay writes to standard error: {}", String::from_utf8_lossy(&output.stderr)));
    }
    if output.stdout != text.as_bytes() {
        return Err(differing(&output.stdout, text));
    }
    Ok(())
}

/// The number with which a text that `replay` prints refuses the file, if it does.
pub fn refusal_of(text: &str) -> Option<u8> {
    text.strip_prefix("refused ")?.split(' ').next()?.parse().ok()
}

/// The first line in which what was printed differs from a text.
fn differing(printed: &[u8], text: &str) -> String {
    let (printed, text) = (printed.split_inclusive(|&octet| octet == b'\n'), text.as_bytes().split_inclusive(|&octet| octet == b'\n'));
    let (mut printed, mut text) = (printed.map(told), text.map(told));
    for line in 1.. {
        match (printed.next(), text.next()) {
            (None, None) => break,
            (one, other) if one == other => (),
            (one, other) => return format!("line {line}: replay prints {}, not {}", or_nothing(one), or_nothing(other)),
        }
    }
    String::from("replay prints octets that are no text")
}

/// A line as a report tells it.
fn told(line: &[u8]) -> String {
    format!("{:?}", String::from_utf8_lossy(line))
}

/// A line, or that there is none.
fn or_nothing(line: Option<String>) -> String {
    line.unwrap_or_else(|| String::from("nothing"))
}

impl Run<'_> {
    /// Replays a capture on both sides, all of it written at once; the text that both print.
    pub fn replay(&mut self, capture: &[u8]) -> Result<String, String> {
        self.replay_in_pieces(&[capture])
    }

    /// Replays a capture on both sides, written to the proved program in these pieces; the text that both print.
    pub fn replay_in_pieces(&mut self, pieces: &[&[u8]]) -> Result<String, String> {
        let capture = pieces.concat();
        let text = (self.sides.replay)(&capture);
        let output = printed(&mut Command::new(self.replay), pieces).map_err(|why| self.not_run(&why))?;
        judged(&output, &text).map_err(|why| self.differs(&capture, &why))?;
        match refusal_of(&text) {
            Some(refusal) => self.coverage.count(Seen::Refused(refusal)),
            None => self.calls += text.lines().count() as u64,
        }
        Ok(text)
    }

    /// Replays a capture on both sides and fails unless they print just this text.
    pub fn replay_prints(&mut self, capture: &[u8], text: &str) -> Result<(), String> {
        let printed = self.replay(capture)?;
        match printed == text {
            true => Ok(()),
            false => Err(self.differs(capture, &format!("as does the outside program; {}", differing(printed.as_bytes(), text)))),
        }
    }

    /// Fails unless the proved program prints just this text of a capture in a file.
    pub fn replay_file(&mut self, path: &Path, text: &str) -> Result<(), String> {
        let output = printed_of_file(&mut Command::new(self.replay), path).map_err(|why| self.not_run(&why))?;
        judged(&output, text).map_err(|why| format!("{}: from its file: {why}", self.place))
    }

    /// What the proved program leaves that was started with a standard input and a standard output as a test wants them.
    pub fn ended(&self, child: io::Result<Child>) -> Result<Output, String> {
        child.and_then(ended).map_err(|why| self.not_run(&why))
    }

    /// A report that the proved program could not be run to its end.
    fn not_run(&self, why: &io::Error) -> String {
        format!("{}: {}: {why}", self.place, self.replay.display())
    }

    /// A report of a difference: where, what, and the capture's text form where that is short.
    fn differs(&self, capture: &[u8], what: &str) -> String {
        let text = reading::text(capture);
        let lines = text.lines().count();
        let told = if lines <= TOLD_LINES { text } else { format!("of {lines} lines, {} octets", capture.len()) };
        format!("{}: {what}; the capture:\n{told}", self.place)
    }
}

#[cfg(test)]
mod tests {
    use std::os::unix::process::ExitStatusExt;
    use std::process::ExitStatus;

    use super::*;

    /// What a program left that ended with a status and printed to standard output and standard error.
    fn left(status: i32, stdout: &str, stderr: &str) -> Output {
        Output { status: ExitStatus::from_raw(status << 8), stdout: stdout.into(), stderr: stderr.into() }
    }

    #[test]
    fn a_difference_is_told() {
        assert_eq!(judged(&left(0, "0 1 5 1 0 0\n", ""), "0 1 5 1 0 0\n"), Ok(()));
        let said = |output: Output, text: &str| judged(&output, text).expect_err("a difference");
        assert_eq!(said(left(1, "a\n", ""), "a\n"), "replay ends with exit status: 1");
        assert_eq!(said(left(0, "a\n", "b"), "a\n"), "replay writes to standard error: b");
        assert_eq!(said(left(0, "a\nb\n", ""), "a\nc\n"), r#"line 2: replay prints "b\n", not "c\n""#);
        assert_eq!(said(left(0, "a\nb", ""), "a\nb\n"), r#"line 2: replay prints "b", not "b\n""#);
        assert_eq!(said(left(0, "a\n", ""), "a\nb\n"), r#"line 2: replay prints nothing, not "b\n""#);
        assert_eq!(said(left(0, "a\nb\n", ""), "a\n"), r#"line 2: replay prints "b\n", not nothing"#);
    }

    #[test]
    fn a_signal_is_told() {
        let killed = Output { status: ExitStatus::from_raw(11), stdout: Vec::new(), stderr: Vec::new() };
        assert!(judged(&killed, "").expect_err("a signal").starts_with("replay ends with signal: 11"));
    }

    #[test]
    fn a_program_that_was_ended_is_an_error() {
        let left = Left { end: End::TookTooLong, stdout: Vec::new(), stderr: Vec::new(), input_unread: false };
        assert_eq!(in_time(left).expect_err("it was ended").to_string(), "does not end and close its pipes within 60s");
    }
}
