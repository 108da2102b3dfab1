//! The kind `captures`, inputs and outputs: what `replay` says of a read or a write that fails, input in pieces, and how much of it is read.

use std::env;
use std::fs::{self, File};
use std::io::{self, Seek, Write};
use std::os::fd::OwnedFd;
use std::os::unix::net::UnixStream;
use std::path::Path;
use std::process::{self, Command, Output, Stdio};

use crate::capture::stored;
use crate::comparing::damage::FileCheck;
use crate::comparing::random::Random;
use crate::comparing::replayed::judged;
use crate::comparing::test::{Run, Test};
use crate::comparing::tests::captures::test;
use crate::model::capture::MOST_OCTETS;

/// The tests of this file.
pub const TESTS: [Test; 10] = [
    test("input_is_a_directory", input_is_a_directory),
    test("input_is_closed", input_is_closed),
    test("input_breaks_off", input_breaks_off),
    test("output_is_full", output_is_full),
    test("output_is_closed", output_is_closed),
    test("output_has_a_limit", output_has_a_limit),
    test("output_without_reader", output_without_reader),
    test("stored_captures_in_pieces", stored_captures_in_pieces),
    test("octets_read_of_a_file", octets_read_of_a_file),
    test("input_without_end", input_without_end),
];

/// How many octets a file may have that `ulimit -f 1` limits.
const LIMITED_OCTETS: usize = 512;

/// A directory, which can be opened but not read.
fn input_is_a_directory(run: &mut Run) -> Result<(), String> {
    run.next_capture("a directory");
    let mut program = Command::new(run.replay);
    says(run, program.stdin(opened("/")?).stdout(Stdio::piped()), "standard input: Is a directory (os error 21)")
}

/// No standard input at all.
fn input_is_closed(run: &mut Run) -> Result<(), String> {
    run.next_capture("closed");
    let mut program = through_shell(run, r#"exec "$0" <&-"#);
    says(run, program.stdout(Stdio::piped()), "standard input: Bad file descriptor (os error 9)")
}

/// A whole capture, after which a read fails: nothing of it is printed.
fn input_breaks_off(run: &mut Run) -> Result<(), String> {
    run.next_capture("the sample, then a failure");
    let input = failing_after(&stored::one("sample")?.octets).map_err(|why| why.to_string())?;
    let mut program = Command::new(run.replay);
    says(run, program.stdin(input).stdout(Stdio::piped()), "standard input: Connection reset by peer (os error 104)")
}

/// A stream that has these octets and then fails, since its other end was closed with an octet unread.
fn failing_after(octets: &[u8]) -> io::Result<OwnedFd> {
    let (mut input, mut other) = UnixStream::pair()?;
    input.write_all(&[0])?;
    other.write_all(octets)?;
    Ok(input.into())
}

/// A device that has no room.
fn output_is_full(run: &mut Run) -> Result<(), String> {
    output_fails(run, r#"exec "$0" >/dev/full"#, "No space left on device (os error 28)")
}

/// No standard output at all.
fn output_is_closed(run: &mut Run) -> Result<(), String> {
    output_fails(run, r#"exec "$0" >&-"#, "Bad file descriptor (os error 9)")
}

/// Replays captures to an output that takes nothing; without events nothing is written, so that nothing fails.
fn output_fails(run: &mut Run, words: &str, why: &str) -> Result<(), String> {
    let why = format!("standard output: {why}");
    for (name, why) in [("sample", &*why), ("full_file", &why), ("refused_21_cut", &why), ("no_events", "")] {
        run.next_capture(name);
        let mut program = through_shell(run, words);
        says(run, program.stdin(opened(stored::path(name))?).stdout(Stdio::null()), why)?;
    }
    Ok(())
}

/// A file that takes the first octets of the text, and fails after them.
fn output_has_a_limit(run: &mut Run) -> Result<(), String> {
    let stored = stored::one("full_file")?;
    run.next_capture("full_file");
    let path = env::temp_dir().join(format!("limited_output_{}", process::id()));
    let output = File::create(&path).map_err(|why| format!("{}: {why}", path.display()))?;
    let mut program = through_shell(run, r#"trap "" XFSZ; ulimit -f 1; exec "$0""#);
    let said = says(run, program.stdin(opened(stored::path("full_file"))?).stdout(output), "standard output: File too large (os error 27)");
    let written = fs::read(&path).and_then(|octets| fs::remove_file(&path).map(|()| octets)).map_err(|why| why.to_string())?;
    match said {
        Ok(()) if written != stored.output.as_bytes()[..LIMITED_OCTETS] => {
            Err(format!("{}: {} octets are written, which are not the text's first {LIMITED_OCTETS}", run.place, written.len()))
        }
        said => said,
    }
}

/// A pipe whose reader goes, and a text that is longer than a pipe holds.
fn output_without_reader(run: &mut Run) -> Result<(), String> {
    run.next_capture("full_file");
    let input = opened(stored::path("full_file"))?;
    let mut child = Command::new(run.replay).stdin(input).stdout(Stdio::piped()).stderr(Stdio::piped()).spawn();
    child.iter_mut().for_each(|child| drop(child.stdout.take()));
    let output = run.ended(child)?;
    told(run, &output, "standard output: Broken pipe (os error 32)")
}

/// The sample octet by octet, and the longest stored captures in pieces of any size.
fn stored_captures_in_pieces(run: &mut Run) -> Result<(), String> {
    for (name, most) in [("sample", 1), ("full_file", 100), ("full_file", 5_000), ("refused_21_too_long", 1_000)] {
        let mut random = run.next_capture(&format!("{name} in pieces of up to {most}"));
        let stored = stored::one(name)?;
        let text = run.replay_in_pieces(&cut(&mut random, &stored.octets, most))?;
        if text != stored.output {
            return Err(format!("{}: other than its stored output", run.place));
        }
    }
    Ok(())
}

/// Octets cut into pieces of 1 to so many.
fn cut<'a>(random: &mut Random, mut octets: &'a [u8], most: u32) -> Vec<&'a [u8]> {
    let mut pieces = Vec::new();
    while !octets.is_empty() {
        let (piece, rest) = octets.split_at(octets.len().min(random.between(1..=most) as usize));
        pieces.push(piece);
        octets = rest;
    }
    pieces
}

/// Every stored capture and a file far longer, this program's own: no octet is read past the one that shows that a file is too long.
fn octets_read_of_a_file(run: &mut Run) -> Result<(), String> {
    for stored in stored::all()? {
        run.next_capture(&stored.name);
        read_of(run, &stored::path(&stored.name), &stored.output)?;
    }
    run.next_capture("a file far longer");
    read_of(run, &env::current_exe().map_err(|why| why.to_string())?, &FileCheck::Length.refused())
}

/// Fails unless the program prints the text of a file and leaves unread what is past the octets of the longest capture and one more.
fn read_of(run: &mut Run, path: &Path, text: &str) -> Result<(), String> {
    let mut file = opened(path)?;
    let shared = file.try_clone().map_err(|why| why.to_string())?;
    let child = Command::new(run.replay).stdin(shared).stdout(Stdio::piped()).stderr(Stdio::piped()).spawn();
    judged(&run.ended(child)?, text).map_err(|why| format!("{}: {why}", run.place))?;
    let places = file.stream_position().and_then(|read| Ok((read, file.metadata()?.len())));
    let (read, length) = places.map_err(|why| why.to_string())?;
    match read == length.min(MOST_OCTETS as u64 + 1) {
        true => Ok(()),
        false => Err(format!("{}: {read} octets are read of {length}", run.place)),
    }
}

/// A device that always has more: the program ends all the same.
fn input_without_end(run: &mut Run) -> Result<(), String> {
    run.next_capture("zeros without end");
    let mut program = Command::new(run.replay);
    let child = program.stdin(opened("/dev/zero")?).stdout(Stdio::piped()).stderr(Stdio::piped()).spawn();
    judged(&run.ended(child)?, &FileCheck::Length.refused()).map_err(|why| format!("{}: {why}", run.place))
}

/// A file to read.
fn opened(path: impl AsRef<Path>) -> Result<File, String> {
    File::open(&path).map_err(|why| format!("{}: {why}", path.as_ref().display()))
}

/// A shell that starts the program, its "$0", as the words say.
fn through_shell(run: &Run, words: &str) -> Command {
    let mut shell = Command::new("sh");
    shell.args(["-c", words]).arg(run.replay);
    shell
}

/// Fails unless a program tells this failure, or none where it is empty, and prints nothing to a pipe.
fn says(run: &Run, program: &mut Command, why: &str) -> Result<(), String> {
    told(run, &run.ended(program.stderr(Stdio::piped()).spawn())?, why)
}

/// Fails unless a program that has ended told this failure on standard error, with status 1, or none where it is empty, with status 0, and printed
/// nothing to a pipe.
fn told(run: &Run, output: &Output, why: &str) -> Result<(), String> {
    let (message, code) = if why.is_empty() { (String::new(), 0) } else { (format!("Error: replay: {why}\n"), 1) };
    let said = String::from_utf8_lossy(&output.stderr);
    if said != message {
        return Err(format!("{}: replay says {said:?}, not {message:?}", run.place));
    }
    match output.status.code() == Some(code) && output.stdout.is_empty() {
        true => Ok(()),
        false => Err(format!("{}: replay ends with {} and prints {} octets", run.place, output.status, output.stdout.len())),
    }
}
