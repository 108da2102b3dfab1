//! The stored captures of the repository's folder captures/.

use std::collections::BTreeSet;
use std::fs;
use std::path::{Path, PathBuf};

/// The ending of a capture's file.
pub const CAPTURE: &str = "capture";
/// The ending of the file with its text form.
pub const TEXT: &str = "text";
/// The ending of the file with what `replay` prints of it.
pub const OUTPUT: &str = "output";
/// The ending of the recording of which a capture was made, where it was.
const RECORDING: &str = "pcap";
/// The ending of the plan under which it was made.
const PLAN: &str = "plan";
/// The file that says of each capture what it shows.
const README: &str = "README.md";

/// A stored capture.
pub struct Stored {
    pub name: String,
    pub octets: Vec<u8>,
    pub text: String,
    pub output: String,
}

/// A stored recording, and the file of the plan under which it becomes the capture of the same name.
pub struct StoredRecording {
    pub octets: Vec<u8>,
    pub plan: PathBuf,
}

/// The folder of the stored captures.
pub fn folder() -> PathBuf {
    Path::new(env!("CARGO_MANIFEST_DIR")).join("../captures")
}

/// The file of the stored capture of a name.
pub fn path(name: &str) -> PathBuf {
    folder().join(format!("{name}.{CAPTURE}"))
}

/// Reads a file of the folder.
fn read(name: &str) -> Result<Vec<u8>, String> {
    let path = folder().join(name);
    fs::read(&path).map_err(|why| format!("{}: {why}", path.display()))
}

/// Reads a file of the folder that is text.
fn read_text(name: &str) -> Result<String, String> {
    String::from_utf8(read(name)?).map_err(|why| format!("{name}: {why}"))
}

/// The stored capture of a name.
pub fn one(name: &str) -> Result<Stored, String> {
    let with = |ending: &str| format!("{name}.{ending}");
    Ok(Stored { name: String::from(name), octets: read(&with(CAPTURE))?, text: read_text(&with(TEXT))?, output: read_text(&with(OUTPUT))? })
}

/// The stored recording of a name.
pub fn recording(name: &str) -> Result<StoredRecording, String> {
    Ok(StoredRecording { octets: read(&format!("{name}.{RECORDING}"))?, plan: folder().join(format!("{name}.{PLAN}")) })
}

/// All stored captures, by name.
pub fn all() -> Result<Vec<Stored>, String> {
    names()?.iter().map(|name| one(name)).collect()
}

/// The names of the stored captures: every file of the folder is one of a capture's three, one of the two of which a capture was made, or the one
/// that says what each shows.
pub fn names() -> Result<Vec<String>, String> {
    let entries = fs::read_dir(folder()).map_err(|why| format!("{}: {why}", folder().display()))?;
    let mut names = BTreeSet::new();
    for entry in entries {
        let file = entry.map_err(|why| why.to_string())?.file_name().to_string_lossy().into_owned();
        match file.split_once('.') {
            Some((name, CAPTURE | TEXT | OUTPUT | RECORDING | PLAN)) => names.insert(String::from(name)),
            _ if file == README => continue,
            _ => return Err(format!("{file} is no file of a stored capture")),
        };
    }
    Ok(names.into_iter().collect())
}

/// The names in the tables of what each capture shows, in their order.
pub fn listed() -> Result<Vec<String>, String> {
    let text = read_text(README)?;
    let tables = text.split("\n\n").filter(|part| part.starts_with("| name |"));
    let rows = tables.flat_map(|table| table.lines().skip(2));
    Ok(rows.filter_map(|row| row.split('`').nth(1)).map(String::from).collect())
}
