//! Wrong programs, seeded by edits of right ones: the lines that name an edit, the edit made in a copy, files that each name one wrong program, and a
//! package in which each module is a copy of a part of this one with one such wrong program's edits made.

use std::env;
use std::fs;
use std::num::NonZero;
use std::path::{Path, PathBuf};
use std::process::{Command, ExitCode};
use std::sync::atomic::{AtomicUsize, Ordering};
use std::sync::Mutex;
use std::thread;

/// One wrong program: its name, what is wrong, the words of its line '# found by:', and the edits that make it.
pub struct Seed {
    pub name: String,
    pub what: String,
    pub found_by: Vec<String>,
    edits: Vec<Edit>,
}

/// A text of one file that is replaced by another.
#[derive(Clone, Debug, PartialEq, Eq)]
pub struct Edit {
    pub file: String,
    pub old: String,
    pub new: String,
}

/// The edits of lines 'file:', 'old:' and 'new:' that are taken one after the other: a file holds for the pairs after it.
#[derive(Default)]
pub struct EditLines {
    file: String,
    old: Option<String>,
    edits: Vec<Edit>,
}

/// A package that is written anew and built: where it is, its manifest, and the file of its program.
pub struct Package<'a> {
    pub folder: &'a Path,
    pub manifest: &'a str,
    pub program: &'a str,
}

/// The folder of this package, whose files are copied.
pub fn harness() -> &'static Path {
    Path::new(env!("CARGO_MANIFEST_DIR"))
}

/// The wrong programs of a folder, by name.
pub fn read_all(folder: &Path) -> Result<Vec<Seed>, String> {
    let entries = fs::read_dir(folder).map_err(|why| format!("{}: {why}", folder.display()))?;
    let paths: Result<Vec<PathBuf>, _> = entries.map(|entry| entry.map(|entry| entry.path())).collect();
    let mut paths = paths.map_err(|why| format!("{}: {why}", folder.display()))?;
    paths.sort();
    paths.iter().map(|path| read(path).map_err(|why| format!("{}: {why}", path.display()))).collect()
}

/// A wrong program as its file has it: '#' what is wrong, '# found by:' what must find it, 'file:', and pairs of 'old:' and 'new:'.
fn read(path: &Path) -> Result<Seed, String> {
    let text = fs::read_to_string(path).map_err(|why| why.to_string())?;
    let (mut what, mut found_by, mut lines) = ("", Vec::new(), EditLines::default());
    for line in text.lines() {
        match line.strip_prefix("# found by: ") {
            Some(words) => found_by = words.split(' ').map(String::from).collect(),
            None if lines.take(line)? => (),
            None => what = line.strip_prefix("# ").ok_or_else(|| format!("'{line}' is no line of an edit"))?,
        }
    }
    let name = path.file_stem().unwrap_or_default().to_string_lossy().into_owned();
    Ok(Seed { name, what: what.into(), found_by, edits: lines.edits()? })
}

impl EditLines {
    /// Takes a line, where it is one of an edit, and says whether it is.
    pub fn take(&mut self, line: &str) -> Result<bool, String> {
        let (word, rest) = line.split_once(':').unwrap_or((line, ""));
        let text = String::from(rest.strip_prefix(' ').unwrap_or(rest));
        match word {
            "file" => self.file = text,
            "old" => self.old = Some(text).filter(|old| !old.is_empty()),
            "new" => self.paired(text)?,
            _ => return Ok(false),
        }
        Ok(true)
    }

    /// The new text of a pair, whose file and old text were taken before.
    fn paired(&mut self, new: String) -> Result<(), String> {
        let old = self.old.take().ok_or_else(|| format!("no line 'old:' stands before 'new: {new}'"))?;
        if self.file.is_empty() {
            return Err(format!("no line 'file:' stands before 'old: {old}'"));
        }
        self.edits.push(Edit { file: self.file.clone(), old, new });
        Ok(())
    }

    /// Whether an edit was taken.
    pub fn any(&self) -> bool {
        !self.edits.is_empty()
    }

    /// The edits that were taken, of which there is one at least and none by half.
    pub fn edits(self) -> Result<Vec<Edit>, String> {
        match (self.old, self.edits.is_empty()) {
            (Some(old), _) => Err(format!("no line 'new:' stands after 'old: {old}'")),
            (None, true) => Err(String::from("it names no edit")),
            (None, false) => Ok(self.edits),
        }
    }
}

impl Seed {
    /// The files that the edits change.
    pub fn files(&self) -> impl Iterator<Item = &str> {
        self.edits.iter().map(|edit| edit.file.as_str())
    }

    /// Puts a copy of a file or folder of this package, with the edits made, into a folder of the wrong program's name.
    fn copied(&self, part: &str, source: &Path) -> Result<(), String> {
        let copy = source.join(&self.name);
        copy_all(&harness().join("src").join(part), &copy.join(part))?;
        self.edits.iter().try_for_each(|edit| edit.made(&copy))
    }
}

impl Edit {
    /// Makes the edit in a copy, where its old text must stand just once.
    pub fn made(&self, copy: &Path) -> Result<(), String> {
        let path = copy.join(&self.file);
        let text = fs::read_to_string(&path).map_err(|why| format!("{}: {why}", self.file))?;
        match text.matches(&self.old).count() {
            1 => write(&path, &text.replacen(&self.old, &self.new, 1)),
            count => Err(format!("'{}' stands {count} times in {}", self.old, self.file)),
        }
    }
}

impl Package<'_> {
    /// Writes the package anew, with a copy of a part for each wrong program, and builds it.
    pub fn built<'s>(&self, seeds: impl Iterator<Item = (&'s Seed, &'s str)>) -> Result<(), String> {
        let source = self.folder.join("src");
        if source.exists() {
            fs::remove_dir_all(&source).map_err(|why| format!("{}: {why}", source.display()))?;
        }
        for (seed, part) in seeds {
            seed.copied(part, &source).map_err(|why| format!("{}: {why}", seed.name))?;
        }
        write(&self.folder.join("Cargo.toml"), self.manifest)?;
        write(&source.join("main.rs"), self.program)?;
        let mut cargo = Command::new(env::var_os("CARGO").unwrap_or("cargo".into()));
        cargo.args(["build", "--quiet", "--offline", "--target-dir", "target"]).current_dir(self.folder).env("RUSTFLAGS", "-A warnings");
        let output = cargo.output().map_err(|why| format!("cargo does not run: {why}"))?;
        match output.status.success() {
            true => Ok(()),
            false => Err(format!("the wrong programs do not compile: {}", String::from_utf8_lossy(&output.stderr))),
        }
    }
}

/// The module of a wrong program in a package's program: the copy of a part, under the name of that part's module.
pub fn module(seed: &Seed, part: &str, module: &str) -> String {
    let path = if part.ends_with(".rs") { String::from(part) } else { format!("{part}/mod.rs") };
    format!("mod {} {{\n    #[path = \"{path}\"]\n    pub mod {module};\n}}\n", seed.name)
}

/// Tries wrong programs, as many at a time as there are processors, and prints what is told of each; how many of them were found as they must be.
pub fn tried<T: Sync>(wrong: &[T], each: impl Fn(&T) -> (bool, String) + Sync) -> usize {
    let found = of_each(wrong, |one| {
        let (is_found, told) = each(one);
        println!("{told}");
        is_found
    });
    found.into_iter().filter(|is_found| *is_found).count()
}

/// What a call gives for each of these, which is made for as many at a time as there are processors.
pub fn of_each<T: Sync, R: Send>(all: &[T], call: impl Fn(&T) -> R + Sync) -> Vec<R> {
    let (next, given) = (AtomicUsize::new(0), Mutex::new(Vec::new()));
    thread::scope(|scope| {
        for _ in 0..thread::available_parallelism().map_or(1, NonZero::get) {
            scope.spawn(|| of_some(all, &call, &next, &given));
        }
    });
    let mut given = given.into_inner().expect("no thread panics with what is given");
    given.sort_by_key(|(at, _)| *at);
    given.into_iter().map(|(_, given)| given).collect()
}

/// Makes the call for one after another that no thread has taken.
fn of_some<T, R>(all: &[T], call: impl Fn(&T) -> R, next: &AtomicUsize, given: &Mutex<Vec<(usize, R)>>) {
    loop {
        let at = next.fetch_add(1, Ordering::Relaxed);
        let Some(one) = all.get(at) else { return };
        let result = call(one);
        given.lock().expect("no thread panics with what is given").push((at, result));
    }
}

/// The closing line.
pub fn closed(passed: usize, failed: usize, why: &str) -> ExitCode {
    if !why.is_empty() {
        println!("{why}");
    }
    println!("{passed} passed, {failed} failed");
    ExitCode::from(u8::from(failed > 0))
}

/// Copies a file, or a folder with what is in it.
pub fn copy_all(from: &Path, to: &Path) -> Result<(), String> {
    if from.is_file() {
        let folder = to.parent().unwrap_or(Path::new("."));
        return fs::create_dir_all(folder).and_then(|()| fs::copy(from, to)).map(drop).map_err(|why| format!("{}: {why}", from.display()));
    }
    for entry in fs::read_dir(from).map_err(|why| format!("{}: {why}", from.display()))? {
        let entry = entry.map_err(|why| why.to_string())?;
        copy_all(&entry.path(), &to.join(entry.file_name()))?;
    }
    Ok(())
}

/// Gives the files of a folder, if it is there, a second place in another: by a second name where this is a file that is replaced and never written
/// again, and where that can be; else by a copy.
pub fn linked(from: &Path, to: &Path, is_replaced: impl Fn(&Path) -> bool + Copy) -> Result<(), String> {
    if !from.exists() {
        return Ok(());
    }
    let told = |why| format!("{}: {why}", from.display());
    fs::create_dir_all(to).map_err(told)?;
    for entry in fs::read_dir(from).map_err(told)? {
        let from = entry.map_err(told)?.path();
        let to = to.join(from.file_name().unwrap_or_default());
        if from.is_dir() {
            linked(&from, &to, is_replaced)?;
        } else if !is_replaced(&from) || fs::hard_link(&from, &to).is_err() {
            copy_all(&from, &to)?;
        }
    }
    Ok(())
}

/// Removes a folder, if it is there.
pub fn removed(folder: &Path) -> Result<(), String> {
    match folder.exists() {
        true => fs::remove_dir_all(folder).map_err(|why| format!("{}: {why}", folder.display())),
        false => Ok(()),
    }
}

/// Writes a file, and the folder that it stands in.
pub fn write(path: &Path, text: &str) -> Result<(), String> {
    let folder = path.parent().unwrap_or(Path::new("."));
    fs::create_dir_all(folder).and_then(|()| fs::write(path, text)).map_err(|why| format!("{}: {why}", path.display()))
}

#[cfg(test)]
mod tests {
    use std::process;

    use super::*;

    /// A folder with a file of a wrong program, removed when the test is over.
    struct Folder(PathBuf);

    impl Folder {
        /// The folder of a test, with a file of this text.
        fn with(test: &str, text: &str) -> Folder {
            let folder = env::temp_dir().join(format!("seeding-{}-{test}", process::id()));
            write(&folder.join("wrong_sum.edit"), text).expect("the file can be written");
            Folder(folder)
        }
    }

    impl Drop for Folder {
        fn drop(&mut self) {
            fs::remove_dir_all(&self.0).expect("the folder can be removed");
        }
    }

    /// What is wrong with the file of a wrong program.
    fn wrong(test: &str, text: &str) -> String {
        let folder = Folder::with(test, text);
        let why = read_all(&folder.0).err().expect("the file is wrong");
        why.replace(&folder.0.display().to_string(), "")
    }

    #[test]
    fn a_wrong_program_is_read_and_made() {
        let text =
            "# The sum is 1 less.\n# found by: lists records\nfile: call.rs\nold: TOLD_OCTETS: usize = 16\nnew: TOLD_OCTETS: usize = 15\n";
        let folder = Folder::with("made", text);
        let seeds = read_all(&folder.0).expect("the file is a good one");
        let (name, what) = (seeds[0].name.as_str(), seeds[0].what.as_str());
        assert_eq!((seeds.len(), name, what), (1, "wrong_sum", "The sum is 1 less."));
        assert_eq!(
            (&seeds[0].found_by[..], seeds[0].files().collect::<Vec<_>>()),
            (&["lists".into(), "records".into()][..], vec!["call.rs"])
        );
        seeds[0].copied("call.rs", &folder.0).expect("the edit can be made");
        let sound = fs::read_to_string(harness().join("src/call.rs")).expect("the file can be read");
        let made = fs::read_to_string(folder.0.join("wrong_sum/call.rs")).expect("the copy can be read");
        assert_eq!(made, sound.replace("TOLD_OCTETS: usize = 16", "TOLD_OCTETS: usize = 15"));
    }

    #[test]
    fn wrong_files_are_told() {
        assert_eq!(wrong("no-edit", "# words\nfile: call.rs\n"), "/wrong_sum.edit: it names no edit");
        assert_eq!(wrong("no-line", "words\n"), "/wrong_sum.edit: 'words' is no line of an edit");
        assert_eq!(wrong("no-file", "# words\nold: a\nnew: b\n"), "/wrong_sum.edit: no line 'file:' stands before 'old: a'");
        assert_eq!(wrong("no-old", "# words\nfile: call.rs\nold: \nnew: b\n"), "/wrong_sum.edit: no line 'old:' stands before 'new: b'");
        assert_eq!(wrong("no-new", "# words\nfile: call.rs\nold: a\n"), "/wrong_sum.edit: no line 'new:' stands after 'old: a'");
    }

    #[test]
    fn an_edit_stands_just_once() {
        let copied = |test: &str, old: &str| {
            let folder = Folder::with(test, &format!("# words\nfile: call.rs\nold: {old}\nnew: x\n"));
            read_all(&folder.0).expect("the file is a good one")[0].copied("call.rs", &folder.0)
        };
        assert_eq!(copied("none", "no such text"), Err("'no such text' stands 0 times in call.rs".into()));
        assert_eq!(copied("twice", "impl fmt::Display"), Err("'impl fmt::Display' stands 2 times in call.rs".into()));
    }

    #[test]
    fn every_one_is_tried_once() {
        assert_eq!(tried(&[1, 2, 3, 4, 5, 6, 7], |one| (one % 2 == 0, format!("tried {one}"))), 3);
        assert_eq!(of_each(&[1, 2, 3, 4, 5, 6, 7], |one| one * 2), [2, 4, 6, 8, 10, 12, 14]);
    }

    #[test]
    fn a_folder_gets_a_second_place() {
        let folder = Folder::with("linked", "text");
        let to = folder.0.join("second");
        linked(&folder.0.join("none"), &to, |_| true).expect("nothing is there");
        assert!(!to.exists());
        write(&folder.0.join("first/in/kept"), "kept").expect("the file can be written");
        write(&folder.0.join("first/in/replaced"), "replaced").expect("the file can be written");
        linked(&folder.0.join("first"), &to, |path| path.ends_with("replaced")).expect("the folder can be read");
        write(&to.join("in/kept"), "other").expect("the file can be written");
        removed(&to.join("none")).expect("nothing is there");
        let read = |path: &str| fs::read_to_string(folder.0.join(path)).expect("the file can be read");
        assert_eq!([read("first/in/kept"), read("second/in/kept"), read("second/in/replaced")], ["kept", "other", "replaced"]);
        removed(&to).expect("the folder can be removed");
        assert_eq!(read("first/in/replaced"), "replaced");
    }
}
