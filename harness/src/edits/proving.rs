//! Checks of crates with edits made. Each is made by `rt check` in a copy of the repository that has what is proved of the right code, as `rt all check`
//! keeps it in the crates' out/: there are as many such copies as checks at a time. The copies stand outside the repository, in which `rt ci` takes no
//! other crate's files.

use std::fs;
use std::path::{Path, PathBuf};
use std::process::Command;
use std::sync::atomic::{AtomicUsize, Ordering};
use std::sync::Mutex;
use std::time::Duration;

use super::logs::Log;
use super::repository::{Repository, LIST};
use crate::running::{self, Bounds, End};
use crate::seeding::{copy_all, linked, removed, write, Edit};

/// What a check may take.
const BOUNDS: Bounds = Bounds { time: Duration::from_secs(1200), stdout: 1 << 26, stderr: 1 << 20 };

/// What a crate is proved from.
const PARTS: [&str; 3] = ["src", "specs", "proofs"];

/// What a check keeps of a crate: its library, and its checked proofs.
const LIBRARY: &str = "rlib";
const CHECKED: &str = "incremental";
/// The ending of a checked module's file, which a check replaces and never writes again, as it does the files of a library.
const MODULE: &str = "oantt";

/// The file beside a copy of a crate that has what the prover said of it.
pub const LOG: &str = ".log";

/// The repository, and copies of it in which checks are made.
pub struct Prover<'a> {
    repository: &'a Repository,
    folder: PathBuf,
    laid_out: AtomicUsize,
    free: Mutex<Vec<PathBuf>>,
}

impl<'a> Prover<'a> {
    /// A prover whose copies of a repository are laid out in a folder.
    pub fn new(repository: &'a Repository, folder: PathBuf) -> Prover<'a> {
        Prover { repository, folder, laid_out: AtomicUsize::new(0), free: Mutex::default() }
    }

    /// Checks a crate with these edits made. The copy of the crate with the edits is left in a folder, with what the prover said.
    pub fn check<'e>(&self, of: &str, edits: impl IntoIterator<Item = &'e Edit>, copy: &Path) -> Result<(), String> {
        removed(copy)?;
        parts(&self.repository.crate_folder(of), copy)?;
        edits.into_iter().try_for_each(|edit| edit.made(copy))?;
        let lane = self.lane()?;
        let said = self.checked(of, copy, &lane);
        self.lay_out(of, &lane)?;
        self.free.lock().expect("no thread panics with the copies").push(lane);
        write(&copy.join(LOG), &said?)
    }

    /// That the right code of a crate is proved, or what the prover says of it.
    pub fn proves(&self, of: &str, copy: &Path) -> Result<(), String> {
        self.check(of, [], copy)?;
        let said = fs::read_to_string(copy.join(LOG)).map_err(|why| format!("{}: {why}", copy.display()))?;
        match Log::read(&said).is_proved() {
            true => Ok(()),
            false => Err(format!("{of} is not proved as it stands:\n{said}")),
        }
    }

    /// A copy of the repository in which no check is under way.
    fn lane(&self) -> Result<PathBuf, String> {
        if let Some(lane) = self.free.lock().expect("no thread panics with the copies").pop() {
            return Ok(lane);
        }
        let lane = self.folder.join(self.laid_out.fetch_add(1, Ordering::Relaxed).to_string());
        write(&lane.join(LIST), &self.repository.list)?;
        self.repository.crates().try_for_each(|of| self.lay_out(of, &lane))?;
        Ok(lane)
    }

    /// Lays out a crate anew in a copy of the repository, with its library where that is proved.
    fn lay_out(&self, of: &str, lane: &Path) -> Result<(), String> {
        let to = lane.join("crates").join(of);
        removed(&to)?;
        parts(&self.repository.crate_folder(of), &to)?;
        linked(&self.repository.kept(of, LIBRARY), &to.join("out").join(LIBRARY), |_| true)
    }

    /// What the prover says of a copy of a crate, over what is proved of the right one.
    fn checked(&self, of: &str, copy: &Path, lane: &Path) -> Result<String, String> {
        let to = lane.join("crates").join(of);
        removed(&to)?;
        parts(copy, &to)?;
        let is_checked = |path: &Path| path.extension().is_some_and(|ending| ending == MODULE);
        linked(&self.repository.kept(of, CHECKED), &to.join("out").join(CHECKED), is_checked)?;
        let mut program = Command::new("rt");
        program.args(["check", "--jobs", "1"]).current_dir(&to);
        let left = running::run(&mut program, b"", &BOUNDS).map_err(|why| format!("rt does not run: {why}"))?;
        match left.end {
            End::Status(_) => Ok([left.stdout, left.stderr].map(|said| String::from_utf8_lossy(&said).into_owned()).concat()),
            End::TookTooLong | End::PrintedTooMuch => Err(format!("{of}: the prover does not end")),
        }
    }
}

/// Copies what a crate is proved from.
fn parts(from: &Path, to: &Path) -> Result<(), String> {
    PARTS.iter().filter(|part| from.join(part).exists()).try_for_each(|part| copy_all(&from.join(part), &to.join(part)))
}
