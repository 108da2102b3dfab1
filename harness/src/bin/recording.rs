//! Makes a capture of a recording, a pcap file on standard input, under the plan that the command line names.

use std::io;
use std::process::ExitCode;

use harness::command_line;
use harness::recording::tool;

fn main() -> ExitCode {
    ExitCode::from(tool::run(&command_line::words(), &mut io::stdin(), &mut io::stdout(), &mut io::stderr()))
}
