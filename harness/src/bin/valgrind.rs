//! Runs the proved program `replay` under valgrind on a few stored captures. One that prints other than its stored output, or of which valgrind
//! reports anything, is a failure. `--replay PROGRAM` names the program where it is another than the repository's. The last line is the total.

use std::path::Path;
use std::process::ExitCode;

use harness::capture::stored;
use harness::command_line::{self, asked};
use harness::comparing::replayed::{judged, printed_of_file};
use harness::comparing::valgrind::valgrind;

/// How the program is called.
const USAGE: &str = "usage: valgrind [--replay PROGRAM]";

/// The captures: the sample, shared records, a stream withdrawn and granted again, each sort of refused file, no event, and as many events as one port can have.
const CAPTURES: [&str; 10] = [
    "sample",
    "shared_records",
    "withdraw_same_number_again",
    "refused_21_cut",
    "refused_21_too_long",
    "refused_22_last_zero",
    "refused_23_last_record",
    "refused_24_last_record",
    "no_events",
    "full_file",
];

/// Valgrind says nothing but what is wrong, which then is its status.
const OPTIONS: [&str; 3] = ["--quiet", "--error-exitcode=99", "--leak-check=full"];

fn main() -> ExitCode {
    match asked(&command_line::words(), &[], USAGE) {
        Ok(asked) => run(&asked.replay),
        Err(status) => status,
    }
}

/// Runs the program on all the captures, and prints the total.
fn run(program: &Path) -> ExitCode {
    let failed = CAPTURES.iter().filter(|name| !passes(program, name)).count();
    println!("{} passed, {failed} failed", CAPTURES.len() - failed);
    ExitCode::from(u8::from(failed > 0))
}

/// Runs the program on one stored capture, and prints whether it passed.
fn passes(program: &Path, name: &str) -> bool {
    let result = checked(program, name);
    match &result {
        Ok(()) => println!("{name} under valgrind: ok"),
        Err(why) => println!("{name} under valgrind: FAILED: {why}"),
    }
    result.is_ok()
}

/// Runs the program on one stored capture under valgrind, and judges what it printed and what valgrind said.
fn checked(program: &Path, name: &str) -> Result<(), String> {
    if !program.is_file() {
        return Err(format!("there is no program {}", program.display()));
    }
    let output = printed_of_file(valgrind(&OPTIONS).arg(program), &stored::path(name));
    judged(&output.map_err(|why| format!("valgrind: {why}"))?, &stored::one(name)?.output)
}
