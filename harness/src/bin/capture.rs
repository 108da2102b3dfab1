//! Turns the text form of a capture into the capture, and a capture into its text form, from standard input to standard output.

use std::io;
use std::process::ExitCode;

use harness::capture::tool;
use harness::command_line;

fn main() -> ExitCode {
    ExitCode::from(tool::run(&command_line::words(), &mut io::stdin(), &mut io::stdout(), &mut io::stderr()))
}
