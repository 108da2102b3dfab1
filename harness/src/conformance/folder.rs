//! The folder into which captures and what belongs to them are written.

use std::env;
use std::fmt;
use std::fs;
use std::path::{Path, PathBuf};

/// The folder.
pub struct Folder {
    path: PathBuf,
}

impl Folder {
    /// The folder that is named, or the repository's target/conformance; told as it is called from here, if it lies below.
    pub fn of(named: Option<&Path>) -> Folder {
        let repository = Path::new(env!("CARGO_MANIFEST_DIR")).parent().expect("the package lies in the repository");
        let path = named.map_or_else(|| repository.join("target/conformance"), Path::to_path_buf);
        let here = env::current_dir().unwrap_or_default();
        Folder { path: path.strip_prefix(here).map(Path::to_path_buf).unwrap_or(path) }
    }

    /// The path of a capture's file with an ending.
    pub fn file(&self, name: &str, ending: &str) -> PathBuf {
        self.path.join(format!("{name}.{ending}"))
    }

    /// Writes a capture's file with an ending; its path.
    pub fn write(&self, name: &str, ending: &str, octets: &[u8]) -> Result<PathBuf, String> {
        let path = self.file(name, ending);
        match fs::create_dir_all(&self.path).and_then(|()| fs::write(&path, octets)) {
            Ok(()) => Ok(path),
            Err(why) => Err(format!("{} cannot be written: {why}", path.display())),
        }
    }
}

impl fmt::Display for Folder {
    fn fmt(&self, f: &mut fmt::Formatter<'_>) -> fmt::Result {
        write!(f, "{}", self.path.display())
    }
}
