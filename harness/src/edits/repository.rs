//! The crates of the repository: their list, and their folders.

use std::fs;
use std::path::{Path, PathBuf};

/// The list of the crates.
pub const LIST: &str = "crates.txt";

/// A crate of the list, and those that it uses.
struct Listed {
    name: String,
    uses: Vec<String>,
}

/// The repository: its folder, the text of its list, and the crates of that.
pub struct Repository {
    pub folder: PathBuf,
    pub list: String,
    listed: Vec<Listed>,
}

impl Repository {
    /// The repository in a folder.
    pub fn read(folder: &Path) -> Result<Repository, String> {
        let told = |why| format!("{}: {why}", folder.join(LIST).display());
        let folder = folder.canonicalize().map_err(told)?;
        let list = fs::read_to_string(folder.join(LIST)).map_err(told)?;
        let listed = list.lines().filter_map(listed).collect();
        Ok(Repository { folder, list, listed })
    }

    /// The names of the crates, lowest first.
    pub fn crates(&self) -> impl Iterator<Item = &str> {
        self.listed.iter().map(|listed| listed.name.as_str())
    }

    /// The crates that a crate uses.
    pub fn uses(&self, of: &str) -> &[String] {
        self.listed.iter().find(|listed| listed.name == of).map_or(&[], |listed| &listed.uses)
    }

    /// A crate and those of the list that it reaches, lowest first.
    pub fn reached<'a>(&'a self, of: &'a str) -> Vec<&'a str> {
        let mut wanted = vec![of];
        for listed in self.listed.iter().rev() {
            if wanted.contains(&listed.name.as_str()) {
                wanted.extend(listed.uses.iter().map(String::as_str));
            }
        }
        self.crates().filter(|name| wanted.contains(name)).collect()
    }

    /// The folder of a crate.
    pub fn crate_folder(&self, of: &str) -> PathBuf {
        self.folder.join("crates").join(of)
    }

    /// The folder of a crate's wrong programs.
    pub fn edits(&self, of: &str) -> PathBuf {
        self.crate_folder(of).join("must-fail")
    }

    /// The file of a crate's cases with this ending: '.txt' of the program, '.out' of what it prints of the right code.
    pub fn cases(&self, of: &str, ending: &str) -> PathBuf {
        self.crate_folder(of).join(format!("cases{ending}"))
    }

    /// Whether a crate is a program, and no library.
    pub fn is_program(&self, of: &str) -> bool {
        self.crate_folder(of).join("src/main.rt").exists()
    }

    /// What is kept of a crate's proof for the crates above it, and for its next check.
    pub fn kept(&self, of: &str, part: &str) -> PathBuf {
        self.crate_folder(of).join("out").join(part)
    }
}

/// The crate of a line 'NAME: the crates that it uses', where it is one; words on how it is built may stand after the name.
fn listed(line: &str) -> Option<Listed> {
    let (head, uses) = line.split('#').next()?.split_once(':')?;
    let name = head.split_whitespace().next()?;
    Some(Listed { name: name.into(), uses: uses.split_whitespace().map(String::from).collect() })
}

#[cfg(test)]
mod tests {
    use super::*;
    use crate::seeding::harness;

    #[test]
    fn the_list_is_read() {
        let repository = Repository::read(&harness().join("..")).expect("the list can be read");
        assert_eq!(repository.crates().next(), Some("lists"));
        assert_eq!(repository.uses("lists"), [] as [&str; 0]);
        assert_eq!(repository.uses("header"), ["lists", "octets", "ranges", "check"]);
        assert_eq!(repository.reached("header"), ["lists", "octets", "ranges", "header"]);
        assert!(repository.crates().all(|of| repository.crate_folder(of).join("src").is_dir()));
        assert!(repository.is_program("replay") && !repository.is_program("lists"));
    }

    #[test]
    fn how_a_crate_is_built_may_stand_after_its_name() {
        let read = |line: &str| listed(line).map(|of| (of.name, of.uses.join(" ")));
        assert_eq!(read("exports staticlib: lists octets # the library"), Some(("exports".into(), "lists octets".into())));
        assert_eq!(read("lists:"), Some(("lists".into(), String::new())));
        assert_eq!(read("# A line for each crate: its name"), None);
    }
}
