//! Sees the conformance set catch. Writes a package in which each module is a copy of the outside program with one wrong reading of document 01,
//! seeded by an edit of conformance/wrong; builds it once; sees the sound program agree with the set; and runs conformance/run over each wrong one.
//! Where that finds no capture at which it parts from the rule, or it does not end as a program should, that is a failure.
//!
//! `wrong_readings` prints, for each, where it was first caught; `wrong_readings --all` runs every capture, and prints in how many of each group it
//! parts. The last line is the total.

use std::path::PathBuf;
use std::process::{Command, ExitCode};

use harness::command_line::{self, WRONG_WORDS};
use harness::seeding::{self, closed, harness, Package, Seed};

/// How the program is called.
const USAGE: &str = "usage: wrong_readings [--all]";

/// The word that asks for every capture.
const ALL: &str = "--all";

/// The name under which the package has the outside program without a fault.
const SOUND: &str = "sound";

/// What is copied for each wrong reading: the outside program.
const COPIED: &str = "model";

/// The files of the outside program by which it is `replay`, each before those that use it.
const FILES: [&str; 9] = ["refusal", "port", "registers", "octets", "frame", "lookup", "rule", "capture", "replay"];
/// Those of them in which a reading can be wrong, each with the others that use it.
const USED_BY: [(&str, &[&str]); 5] = [
    ("port", &["lookup", "rule", "replay"]),
    ("octets", &["capture", "replay"]),
    ("rule", &["replay"]),
    ("capture", &["replay"]),
    ("replay", &[]),
];

/// The manifest of the package, which takes nothing from this one but copies: quick to build, and a sum that overflows stops it.
const MANIFEST: &str = r#"[package]
name = "wrong"
version = "0.1.0"
edition = "2021"

[profile.dev]
debug = false

[workspace]
"#;

/// The program over the wrong readings, the command that runs it, and whether that runs every capture.
struct Readings {
    program: PathBuf,
    command: PathBuf,
    folder: PathBuf,
    all: bool,
}

fn main() -> ExitCode {
    let words = command_line::words();
    match words.iter().map(String::as_str).collect::<Vec<_>>()[..] {
        [] => run(false),
        [ALL] => run(true),
        _ => {
            eprintln!("{USAGE}");
            ExitCode::from(WRONG_WORDS)
        }
    }
}

/// Reads the wrong readings, builds the package, and tries them.
fn run(all: bool) -> ExitCode {
    let (package, conformance) = (harness().join("target/wrong"), harness().join("../conformance"));
    let program = package.join("target/debug/wrong");
    let readings = Readings { program, command: conformance.join("run"), folder: package.join("parting"), all };
    let built = seeding::read_all(&conformance.join("wrong")).and_then(|seeds| {
        let copies = seeds.iter().map(|seed| (seed, COPIED));
        Package { folder: &package, manifest: MANIFEST, program: &program_of(&seeds) }.built(copies).map(|()| seeds)
    });
    match built {
        Ok(seeds) => readings.tried(&seeds),
        Err(why) => closed(0, 1, &why),
    }
}

/// The program over the copies: its word names a wrong reading, and it is `replay` by that reading.
fn program_of(seeds: &[Seed]) -> String {
    let modules: String = seeds.iter().map(module).collect();
    let arms: String = seeds.iter().map(|seed| format!("        \"{0}\" => {0}::model::replay::program(),\n", seed.name)).collect();
    [
        "#[path = \"../../../src/call.rs\"]\nmod call;\n#[path = \"../../../src/model/mod.rs\"]\nmod model;\n",
        &modules,
        "\nfn main() -> std::io::Result<()> {\n    match std::env::args().nth(1).unwrap_or_default().as_str() {\n",
        &arms,
        &format!("        \"{SOUND}\" => model::replay::program(),\n        other => panic!(\"{{other}} is no wrong reading\"),\n"),
        "    }\n}\n",
    ]
    .concat()
}

/// The module of a wrong reading: the files that it changes and those that use them, and the others as they are. So the package is quick to build.
fn module(seed: &Seed) -> String {
    let changed = USED_BY.iter().filter(|(file, _)| seed.files().any(|edited| edited == format!("{COPIED}/{file}.rs")));
    let copied: Vec<&str> = changed.flat_map(|(file, used_by)| [file].into_iter().chain(*used_by)).copied().collect();
    let (copies, others): (Vec<&str>, Vec<&str>) = FILES.iter().partition(|file| copied.contains(file));
    let copies: String = copies.iter().map(|file| format!("        pub mod {file};\n")).collect();
    format!("mod {} {{\n    pub mod model {{\n        pub use crate::model::{{{}}};\n{copies}    }}\n}}\n", seed.name, others.join(", "))
}

impl Readings {
    /// Tries all wrong readings, once it is seen that the program without one agrees with the set.
    fn tried(&self, seeds: &[Seed]) -> ExitCode {
        match self.told(SOUND) {
            Ok((0, _)) => (),
            Ok((_, told)) => return closed(0, 1, &format!("the outside program itself does not agree with the set:\n{told}")),
            Err(why) => return closed(0, 1, &why),
        }
        let caught = seeding::tried(seeds, |seed| self.tried_one(seed));
        closed(caught, seeds.len() - caught, "")
    }

    /// Tries one wrong reading: whether it was caught as it must be, and what is told of it.
    fn tried_one(&self, seed: &Seed) -> (bool, String) {
        let (is_caught, where_caught) = match self.told(&seed.name) {
            Ok((1, told)) if told.contains("\n  the program ended with ") => (false, format!("NOT RUN to its end:\n{told}")),
            Ok((1, told)) => (true, format!("caught {}", caught_at(&told, self.all))),
            Ok((0, _)) => (false, String::from("NOT CAUGHT")),
            Ok((_, told)) => (false, format!("NOT RUN: {told}")),
            Err(why) => (false, why),
        };
        (is_caught, format!("{}: {where_caught}: {}", seed.name, seed.what))
    }

    /// The status of the command over a program of the package, and what it tells.
    fn told(&self, name: &str) -> Result<(i32, String), String> {
        let mut command = Command::new(&self.command);
        command.arg("--into").arg(self.folder.join(name));
        if !self.all {
            command.arg("--first");
        }
        // The command is built as a person builds it, whatever was asked of the compiler for this program.
        let output = command.arg(&self.program).arg(name).env_remove("RUSTFLAGS").output();
        let output = output.map_err(|why| format!("{} does not run: {why}", self.command.display()))?;
        let told = [output.stdout, output.stderr].concat();
        Ok((output.status.code().unwrap_or(-1), String::from_utf8_lossy(&told).into_owned()))
    }
}

/// Where the command tells that a program parts: the capture, the port and the event, and by groups where every capture was run.
fn caught_at(told: &str, all: bool) -> String {
    let mut lines = told.lines().skip_while(|line| !line.starts_with("capture "));
    let capture = lines.next().and_then(|line| line.split(' ').nth(1)).unwrap_or("nowhere");
    let place = lines.next().and_then(|line| line.trim().split(':').next()).unwrap_or("nowhere");
    let groups: Vec<&str> =
        told.lines().take_while(|_| all).filter(|line| line.ends_with(" part from it") && !line.starts_with("of ")).collect();
    [format!("{capture} {place}")].iter().map(String::as_str).chain(groups).collect::<Vec<_>>().join("; ")
}
