//! conformance/sums: for each seeded capture a line with its name and, as `cksum` prints them, the checksums of the capture and of what the rule
//! prints of it.

use std::collections::BTreeMap;
use std::fs;
use std::path::{Path, PathBuf};

use crate::conformance::checksum::Checksum;
use crate::conformance::groups::GROUPS;
use crate::conformance::set;
use crate::model::replay::replay;

/// Begins a line that is there for a reader.
const COMMENT: char = '#';
/// What stands before the lines of the captures, behind the name of the set.
const HEADING: &str = "capture, cksum of the capture, cksum of what the rule prints of it; each is the checksum and the number of octets";

/// The checksums of a capture and of what the rule prints of it.
#[derive(Clone, Copy, Debug, PartialEq, Eq)]
pub struct Sums {
    pub capture: Checksum,
    pub output: Checksum,
}

/// The sums of each seeded capture, by its name.
pub type All = BTreeMap<String, Sums>;

/// The file of the sums, as it is called in the repository.
pub const FILE: &str = "conformance/sums";

/// The path of the file.
fn path() -> PathBuf {
    Path::new(env!("CARGO_MANIFEST_DIR")).join("..").join(FILE)
}

/// The sums that the file has.
pub fn stored() -> Result<All, String> {
    let text = fs::read_to_string(path()).map_err(|why| format!("{FILE}: {why}"))?;
    read(&text).map_err(|why| format!("{FILE}: {why}"))
}

/// The sums of a text.
fn read(text: &str) -> Result<All, String> {
    let mut sums = All::new();
    for (before, line) in text.lines().enumerate().filter(|(_, line)| !line.starts_with(COMMENT)) {
        let wrong = |what: &str| format!("line {}: {what}", before + 1);
        let (name, read) = read_line(line).map_err(|why| wrong(&why))?;
        if sums.insert(String::from(name), read).is_some() {
            return Err(wrong(&format!("{name} has a line already")));
        }
    }
    Ok(sums)
}

/// The name and the sums of a line: the name, then twice a checksum and a number of octets.
fn read_line(line: &str) -> Result<(&str, Sums), String> {
    let places: Vec<usize> = line.match_indices(' ').map(|(place, _)| place).collect();
    let [name, _, capture, _] = places[..] else { return Err(format!("'{line}' is no name with two checksums")) };
    let sums = Sums { capture: line[name + 1..capture].parse()?, output: line[capture + 1..].parse()? };
    Ok((&line[..name], sums))
}

/// The sums of a capture as it is now made, and of what the rule now prints of it.
pub fn of(octets: &[u8], output: &str) -> Sums {
    Sums { capture: Checksum::of(octets), output: Checksum::of(output.as_bytes()) }
}

/// The text of the file for the captures as they are now made.
pub fn text() -> String {
    let lines =
        GROUPS.iter().flat_map(|group| (1..=group.captures()).map(move |number| (group.capture_name(number), group.capture(number))));
    lines.fold(format!("{COMMENT} {}: {HEADING}\n", set::named()), |text, (name, octets)| {
        let Sums { capture, output } = of(&octets, &replay(&octets));
        format!("{text}{name} {capture} {output}\n")
    })
}

#[cfg(test)]
mod tests {
    use super::*;

    #[test]
    fn lines_are_read() {
        let sums =
            |capture, output| Sums { capture: Checksum { check: capture, octets: 16 }, output: Checksum { check: output, octets: 0 } };
        let all = All::from([(String::from("fits-001"), sums(7, 8)), (String::from("fits-002"), sums(9, 10))]);
        assert_eq!(read("# words\nfits-001 7 16 8 0\nfits-002 9 16 10 0\n"), Ok(all));
    }

    #[test]
    fn wrong_lines_are_told() {
        let wrong = |text: &str| read(text).expect_err("a wrong line");
        assert_eq!(wrong("fits-001 7 16 8\n"), "line 1: 'fits-001 7 16 8' is no name with two checksums");
        assert_eq!(wrong("# words\n\n"), "line 2: '' is no name with two checksums");
        assert_eq!(wrong("fits-001 7 16 x 0\n"), "line 1: 'x 0' is no checksum and number of octets");
        assert_eq!(wrong("a 1 2 3 4\na 1 2 3 4\n"), "line 2: a has a line already");
    }

    #[test]
    fn the_file_has_the_captures_as_they_are_made() {
        let stored = fs::read_to_string(path()).expect("the file can be read");
        let made = text();
        let differing = stored.lines().zip(made.lines()).find(|(stored, made)| stored != made);
        assert_eq!((differing, stored.len()), (None, made.len()));
    }
}
