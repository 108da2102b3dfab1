//! Which files of a folder of modules a wrong program needs copies of: those that it changes, and those that use them. The others stay as they are, so
//! that a package of many wrong programs is quick to build.

use std::collections::{BTreeMap, BTreeSet};
use std::fs;

use crate::seeding::{harness, Seed};

/// What stands before the name of a module of the same folder, where a file uses it.
const USED: &str = "super::";
/// The ending of a file of Rust, and how the names of files end that hold tests alone.
const ENDING: &str = ".rs";
const TESTS: &str = "tests";
/// The file of the folder's own module, which is written anew for each wrong program.
const OWN: &str = "mod";

/// A folder of modules of this package: the name of each, and those that it uses.
pub struct Folder {
    name: &'static str,
    uses: BTreeMap<String, BTreeSet<String>>,
}

impl Folder {
    /// The modules of a folder of this package.
    pub fn read(name: &'static str) -> Result<Folder, String> {
        let folder = harness().join("src").join(name);
        let told = |why| format!("{}: {why}", folder.display());
        let mut texts = BTreeMap::new();
        for entry in fs::read_dir(&folder).map_err(told)? {
            let path = entry.map_err(told)?.path();
            let file = path.file_name().unwrap_or_default().to_string_lossy().into_owned();
            if let Some(module) = file.strip_suffix(ENDING).filter(|module| *module != OWN && !module.ends_with(TESTS)) {
                texts.insert(String::from(module), fs::read_to_string(&path).map_err(told)?);
            }
        }
        let uses = texts.iter().map(|(module, text)| (module.clone(), used(text, |name| texts.contains_key(name)))).collect();
        Ok(Folder { name, uses })
    }

    /// The folder's module for a wrong program: copies of the files that it changes and of those by which the first ones use them, and the others as
    /// they are.
    pub fn module(&self, seed: &Seed, first: &[&str]) -> String {
        let copied = self.copied(&seed.files().collect::<Vec<_>>(), first);
        let (copies, others): (Vec<&String>, Vec<&String>) = self.uses.keys().partition(|module| copied.contains(*module));
        let copies: String = copies.iter().map(|module| format!("        pub mod {module};\n")).collect();
        let others: String = others.iter().map(|module| format!("        pub use crate::{}::{module};\n", self.name)).collect();
        format!("mod {} {{\n    pub mod {} {{\n{others}{copies}    }}\n}}\n", seed.name, self.name)
    }

    /// The modules of which a wrong program that changes these files needs copies.
    fn copied(&self, changed: &[&str], first: &[&str]) -> BTreeSet<String> {
        let is_changed = |module: &String| changed.iter().any(|file| *file == format!("{}/{module}{ENDING}", self.name));
        let reached: BTreeSet<String> = first.iter().flat_map(|module| self.reached(module)).collect();
        reached.into_iter().filter(|module| self.reached(module).iter().any(is_changed)).collect()
    }

    /// A module, and those that it uses by itself or by others.
    fn reached(&self, module: &str) -> BTreeSet<String> {
        let mut reached = BTreeSet::new();
        let mut ahead = vec![String::from(module)];
        while let Some(next) = ahead.pop() {
            if reached.insert(next.clone()) {
                ahead.extend(self.uses.get(&next).into_iter().flatten().cloned());
            }
        }
        reached
    }
}

/// The modules of its folder that a file uses.
fn used(text: &str, is_module: impl Fn(&str) -> bool) -> BTreeSet<String> {
    let named = |rest: &str| rest.split(|mark: char| !mark.is_alphanumeric() && mark != '_').next().unwrap_or_default().to_string();
    text.split(USED).skip(1).map(named).filter(|name| is_module(name)).collect()
}

#[cfg(test)]
mod tests {
    use super::*;

    /// The modules of the outside program of which a change of one file needs copies.
    fn copied(file: &str, first: &[&str]) -> Vec<String> {
        Folder::read("model").expect("the folder can be read").copied(&[file], first).into_iter().collect()
    }

    #[test]
    fn a_changed_file_and_those_that_use_it_are_copied() {
        assert_eq!(copied("model/rule.rs", &["calls", "replay"]), ["calls", "replay", "rule"]);
        assert_eq!(copied("model/fitness.rs", &["calls", "replay"]), ["calls", "fitness"]);
    }

    #[test]
    fn a_file_is_copied_only_where_what_is_played_uses_it() {
        assert_eq!(copied("model/rule.rs", &["replay"]), ["replay", "rule"]);
        assert!(copied("model/fitness.rs", &["replay"]).is_empty());
    }

    #[test]
    fn those_that_use_a_file_by_others_are_copied() {
        assert_eq!(copied("model/lookup.rs", &["replay"]), ["lookup", "replay", "rule"]);
    }

    #[test]
    fn a_file_that_is_named_in_any_place_is_used() {
        let known = |name: &str| ["port", "octets", "rule_of"].contains(&name);
        let text = "use super::port::{Port};\nuse super::rule;\nfn of() { super::octets::read() }\nuse super::rule_of;\nuse super::*;\n";
        assert_eq!(used(text, known).into_iter().collect::<Vec<_>>(), ["octets", "port", "rule_of"]);
    }
}
