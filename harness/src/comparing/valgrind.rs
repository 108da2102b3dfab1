//! Programs under valgrind: the proved program `replay` with its arrays, and the instructions that a program takes.

use std::io;
use std::path::Path;
use std::process::Command;

use crate::comparing::replayed::printed_of_file;

/// How many octets valgrind takes a stack, and a frame of it, to have at most: the arrays of `replay` stand on its stack.
const STACK_OCTETS: usize = 16_777_216;

/// Valgrind with options of its own and room for the stack of `replay`; the program is still to be added.
pub fn valgrind(options: &[&str]) -> Command {
    let mut valgrind = Command::new("valgrind");
    valgrind.args(options).arg(format!("--main-stacksize={STACK_OCTETS}")).arg(format!("--max-stackframe={STACK_OCTETS}"));
    valgrind
}

/// The instructions of one run of a program whose standard input is the file: all from its start to its end, unless options of callgrind say which.
pub fn instructions(program: &Command, input: &Path, options: &[&str]) -> io::Result<u64> {
    let mut valgrind = valgrind(&["--tool=callgrind", "--callgrind-out-file=/dev/null"]);
    valgrind.args(options).arg(program.get_program()).args(program.get_args());
    let output = printed_of_file(&mut valgrind, input).map_err(|why| io::Error::other(format!("valgrind: {why}")))?;
    let said = String::from_utf8_lossy(&output.stderr);
    let count = said.lines().find_map(|line| line.split_once("Collected :")?.1.trim().parse().ok());
    count.ok_or_else(|| io::Error::other(format!("valgrind tells no count: {said}")))
}
