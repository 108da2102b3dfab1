//! The outside program's `replay`: reads a capture from standard input and prints what document 01 says of it. It is there for a person who wants
//! to hold what `crates/replay/out/replay` prints of a capture against it by hand; no test starts it.

use std::io;

use harness::model::replay;

fn main() -> io::Result<()> {
    replay::program()
}
