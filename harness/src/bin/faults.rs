//! Sees the comparing tests catch. Writes a package in which each module is a copy of one side, or of a checker of lists, with one fault, seeded by
//! an edit of faults/; builds it once; sees every test pass over the sound sides; and runs over each fault what its edit names: kinds of test,
//! or single tests. Where one of these does not find it, that is a failure.
//!
//! `faults` prints, for each fault, what found it; `faults --all` also runs every kind on every fault; `--replay PROGRAM` names the proved program
//! `replay` where it is another than the repository's. The last line is the total.

use std::path::PathBuf;
use std::process::{Command, ExitCode, Stdio};

use harness::command_line::{self, asked, Asked, REPLAY};
use harness::comparing::program::named;
use harness::comparing::test::KINDS;
use harness::seeding::{self, closed, harness, Package, Seed};
use harness::sharing::Folder;

/// How the program is called.
const USAGE: &str = "usage: faults [--all] [--replay PROGRAM]";

/// The word that asks for every kind on every fault.
const ALL: &str = "--all";

/// The size at which a fault must be found, in percent of the gate's.
const SIZE: &str = "10";

/// The name under which the package has all of that without a fault.
const SOUND: &str = "sound";

/// What a fault can be seeded in: the file or folder that is copied for it, its module, and the functions of it that stand for a side or checker.
struct Part {
    copied: &'static str,
    module: &'static str,
    plays: &'static [(&'static str, &'static str)],
}

/// The part of which each fault needs copies of some files alone, and the files of it that have the functions of its sides.
const MODEL: &str = "model";
const PLAYED: [&str; 2] = ["calls", "replay"];

/// The independent model, the quick calls in plain Rust, the exports as a host declares and calls them, and the checkers of demand 3, of what lists
/// take and of what they tell of counts.
const PARTS: [Part; 7] = [
    Part { copied: MODEL, module: MODEL, plays: &[("model", "calls::call"), ("replay", "replay::replay")] },
    Part { copied: "in_place", module: "in_place", plays: &[("in_place", "call")] },
    Part { copied: "exports.rs", module: "exports", plays: &[("exports", "call"), ("quick", "unscanned"), ("stream", "stream_arrive")] },
    Part { copied: "guarantee/claims.rs", module: "claims", plays: &[("check", "check")] },
    Part { copied: "guarantee/pairs.rs", module: "pairs", plays: &[("pair", "check")] },
    Part { copied: "guarantee/taken.rs", module: "taken", plays: &[("numbers", "check")] },
    Part { copied: "guarantee/counts.rs", module: "counts", plays: &[("counts", "check")] },
];

/// The manifest of the package: quick to build, and a sum that overflows stops it.
const MANIFEST: &str = r#"[package]
name = "seeded"
version = "0.1.0"
edition = "2021"

[dependencies]
harness = { path = "../.." }

[profile.dev]
opt-level = 1
debug = false

[workspace]
"#;

/// One seeded fault, and what it is seeded in.
struct Fault {
    seed: Seed,
    part: &'static Part,
}

/// The program over the faults, and the proved program `replay` that it is given.
struct Seeded {
    program: PathBuf,
    replay: PathBuf,
}

fn main() -> ExitCode {
    match asked(&command_line::words(), &[ALL], USAGE) {
        Ok(asked) => run(asked),
        Err(status) => status,
    }
}

/// Reads the faults, builds the package, and tries them.
fn run(asked: Asked) -> ExitCode {
    let package = harness().join("target/seeded");
    let seeded = Seeded { program: package.join("target/debug/seeded"), replay: asked.replay };
    let built = read_faults().and_then(|faults| {
        let seeds = faults.iter().map(|fault| (&fault.seed, fault.part.copied));
        let program = program(&faults, &Folder::read(MODEL)?);
        Package { folder: &package, manifest: MANIFEST, program: &program }.built(seeds).map(|()| faults)
    });
    match built {
        Ok(faults) => tried(&seeded, &faults, asked.own.iter().any(|word| word == ALL)),
        Err(why) => closed(0, 1, &why),
    }
}

/// Tries all faults, once it is seen that the tests pass where there is none.
fn tried(seeded: &Seeded, faults: &[Fault], all: bool) -> ExitCode {
    if let Some((kind, _)) = KINDS.iter().find(|(kind, _)| status(seeded, SOUND, kind) != Some(0)) {
        return closed(0, 1, &format!("the tests of kind {kind} do not pass where no fault is seeded"));
    }
    let found = seeding::tried(faults, |fault| try_one(seeded, &fault.seed, all));
    closed(found, faults.len() - found, "")
}

/// Tries one fault: whether it was found as it must be, and what is told of it.
fn try_one(seeded: &Seeded, fault: &Seed, all: bool) -> (bool, String) {
    let mut words: Vec<&str> = fault.found_by.iter().map(String::as_str).collect();
    words.extend(KINDS.iter().map(|(kind, _)| *kind).filter(|kind| all && !fault.found_by.iter().any(|by| by == kind)));
    let (finders, others): (Vec<&str>, Vec<&str>) = words.into_iter().partition(|word| status(seeded, &fault.name, word) == Some(1));
    let missed: Vec<&str> = others.into_iter().filter(|word| fault.found_by.iter().any(|by| by == word)).collect();
    let verdict = if missed.is_empty() { String::from("ok") } else { format!("NOT FOUND by {}", missed.join(" ")) };
    (missed.is_empty(), format!("fault {}: {verdict}: found by {}: {}", fault.name, finders.join(" "), fault.what))
}

/// How a kind of test, or a test, ends over a fault: 0 where it passes, 1 where it fails, anything else where it could not be run.
fn status(seeded: &Seeded, fault: &str, word: &str) -> Option<i32> {
    let mut program = Command::new(&seeded.program);
    program.args([fault, word, "--size", SIZE, "--first-failure", REPLAY]).arg(&seeded.replay);
    program.stdout(Stdio::null()).stderr(Stdio::null()).status().ok()?.code()
}

/// The program over the copies: its first word names a fault, the others are those of `compare`.
fn program(faults: &[Fault], model: &Folder) -> String {
    let modules: String = faults.iter().map(|fault| module(fault, model)).collect();
    let arms: String = faults.iter().map(arm).collect();
    [
        "pub use harness::{call, guarantee, layout, model};\nuse harness::comparing::{program, sides::Sides};\n\n",
        &modules,
        "\nfn main() -> std::process::ExitCode {\n    let words: Vec<String> = std::env::args().skip(1).collect();\n",
        "    let sides = match words[0].as_str() {\n",
        &arms,
        &format!("        \"{SOUND}\" => Sides::SOUND,\n"),
        "        other => panic!(\"{other} is no fault\"),\n    };\n    program::run(&words[1..], sides)\n}\n",
    ]
    .concat()
}

/// The module of a fault: of the model what it changes and what uses that, of any other part all.
fn module(fault: &Fault, model: &Folder) -> String {
    match fault.part.copied {
        MODEL => model.module(&fault.seed, &PLAYED),
        copied => seeding::module(&fault.seed, copied, fault.part.module),
    }
}

/// The arm of the program for a fault: the sound sides and checkers, but for what the fault is seeded in.
fn arm(fault: &Fault) -> String {
    let (name, part) = (&fault.seed.name, fault.part);
    let play = |(side, function): &(&str, &str)| format!("{side}: {name}::{}::{function}, ", part.module);
    let plays: String = part.plays.iter().map(play).collect();
    format!("        \"{name}\" => Sides {{ {plays}..Sides::SOUND }},\n")
}

/// The faults of the folder faults/, by name.
fn read_faults() -> Result<Vec<Fault>, String> {
    seeding::read_all(&harness().join("faults"))?.into_iter().map(fault).collect()
}

/// A fault, with what it is seeded in; it names what must find it.
fn fault(seed: Seed) -> Result<Fault, String> {
    if seed.found_by.is_empty() || !seed.found_by.iter().all(|word| named(word).is_some()) {
        return Err(format!("fault {} names no kind of test or test that there is", seed.name));
    }
    let part = PARTS.iter().find(|part| seed.files().all(|file| file.starts_with(part.copied)));
    part.map(|part| Fault { part, seed }).ok_or_else(|| String::from("no fault can be seeded in the file that an edit names"))
}
