//! Holds the proved calls against the outside program. The words of its command line are in `comparing::program`.

use std::process::ExitCode;

use harness::command_line;
use harness::comparing::program;
use harness::comparing::sides::Sides;

fn main() -> ExitCode {
    program::run(&command_line::words(), Sides::SOUND)
}
