//! How many instructions a call takes, by valgrind's callgrind: as a call, as a quick call, as plain Rust in place on the same layout, and as the
//! outside program plays it. It runs itself under callgrind with one batch of calls on one side, and only what is done in the function of that side
//! is counted, not how the calls are handed to it. A lookup and a question for counts have no quick form: they are the same call twice. Nothing here is
//! a test: it prints figures and judges none. It wants valgrind.

use std::env;
use std::hint::black_box;
use std::io;
use std::path::Path;
use std::process::{Command, ExitCode};

use harness::batches::{groups, Batch};
use harness::call::{Call, Given};
use harness::command_line::{self, WRONG_WORDS};
use harness::comparing::fit::Octets;
use harness::comparing::sides::Play;
use harness::comparing::valgrind;
use harness::{exports, in_place, model};

/// How the program is called.
const USAGE: &str = "usage: instructions";

/// One side: its name, how it plays a call, and the functions whose instructions are its own.
struct Side {
    name: &'static str,
    play: Play,
    functions: &'static str,
}

/// The sides in the order of the table.
const SIDES: [Side; 4] = [
    Side { name: "call", play: exports::call, functions: "bunnysolder_*" },
    Side { name: "quick", play: exports::unscanned, functions: "bunnysolder_*" },
    Side { name: "Rust", play: in_place::call, functions: "harness::in_place::call" },
    Side { name: "outside", play: model::call, functions: "harness::model::calls::call" },
];

fn main() -> ExitCode {
    let words = command_line::words();
    let result = match &words[..] {
        [] => report(),
        [side, number] if played_as_asked(side, number).is_some() => Ok(()),
        words => {
            eprintln!("'{}' is no side and number of a batch\n{USAGE}", words.join(" "));
            return ExitCode::from(WRONG_WORDS);
        }
    };
    if let Err(why) = &result {
        eprintln!("{why}");
    }
    ExitCode::from(u8::from(result.is_err()))
}

/// Prints the table: a line for each batch.
fn report() -> io::Result<()> {
    println!("instructions of one call, by valgrind --tool=callgrind");
    println!("{:<38}{:>9}{:>9}{:>9}{:>9}{:>14}", "", SIDES[0].name, SIDES[1].name, SIDES[2].name, SIDES[3].name, "quick / Rust");
    let mut number = 0;
    for group in groups() {
        println!("{}", group.port);
        (number..).zip(&group.batches).try_for_each(|(number, batch)| line(number, batch))?;
        number += group.batches.len();
    }
    Ok(())
}

/// Prints the line of the batch of this number.
fn line(number: usize, batch: &Batch) -> io::Result<()> {
    batch.same_on_all_sides();
    let mut figures = [0.0; SIDES.len()];
    for (figure, side) in figures.iter_mut().zip(&SIDES) {
        *figure = counted(side, number)? as f64 / batch.calls.len() as f64;
    }
    let [call, quick, rust, outside] = figures;
    println!("  {:<36}{call:>9.0}{quick:>9.0}{rust:>9.0}{outside:>9.0}{:>14.2}", batch.what, quick / rust);
    Ok(())
}

/// The instructions of one side on the batch of this number: those of its functions, once the batch begins.
fn counted(side: &Side, number: usize) -> io::Result<u64> {
    let mut program = Command::new(env::current_exe()?);
    program.args([side.name, &number.to_string()]);
    let functions = format!("--toggle-collect={}", side.functions);
    match valgrind::instructions(&program, Path::new("/dev/null"), &[&functions, "--zero-before=instructions::played"])? {
        0 => Err(io::Error::other(format!("callgrind meets no function '{}' in batch {number}", side.functions))),
        count => Ok(count),
    }
}

/// Plays the batch of a number on one side, if there are both.
fn played_as_asked(side: &str, number: &str) -> Option<()> {
    let side = SIDES.iter().find(|known| known.name == side)?;
    let batch = groups().into_iter().flat_map(|group| group.batches).nth(number.parse().ok()?)?;
    played(batch, side.play);
    Some(())
}

/// Plays the calls of a batch. Callgrind counts from here on, by this function's name.
#[inline(never)]
fn played(batch: Batch, play: Play) {
    let Octets { mut record, mut memory } = batch.port;
    let calls: Vec<Given> = batch.calls.iter().map(Call::given).collect();
    for call in black_box(&calls[..]) {
        black_box(play(call, &mut record, &mut memory));
    }
}
