//! Draws the events of a capture, from standard input to standard output, as a picture in the SVG format, or says them in words.

use std::io;
use std::process::ExitCode;

use harness::command_line;
use harness::timeline::tool;

fn main() -> ExitCode {
    ExitCode::from(tool::run(&command_line::words(), &mut io::stdin(), &mut io::stdout(), &mut io::stderr()))
}
