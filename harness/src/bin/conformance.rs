//! Runs a program in place of `replay` over the conformance set, and says in words where it first parts from the rule. The words of its command line
//! are in `conformance::asked`; conformance/run is how a person calls it.

use std::io;
use std::process::ExitCode;

use harness::command_line;
use harness::conformance::tool;

fn main() -> ExitCode {
    ExitCode::from(tool::run(&command_line::words(), &mut io::stdout(), &mut io::stderr()))
}
