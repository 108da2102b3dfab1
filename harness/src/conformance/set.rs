//! The captures of the set, in the order in which they are run: the stored ones of captures/ as its README lists them, then the seeded ones, group
//! after group. Each is held against what is stored of it before a program gets it.

use crate::capture::stored::{self, Stored};
use crate::conformance::checksum::Checksum;
use crate::conformance::groups::{Group, GROUPS};
use crate::conformance::sums::{self, Sums};
use crate::model::replay::replay;

/// The edition of the rule by which the set is made: the number of the last request of document 02 that the rule follows.
pub const EDITION: u32 = 5;

/// The group of the stored captures.
pub const STORED: &str = "stored";
/// What the stored captures are about.
const ABOUT_STORED: &str = "the captures of captures/, whose README says what each shows";

/// A capture of the set: its name and group, and where it comes from.
pub struct Entry {
    pub name: String,
    pub group: &'static str,
    source: Source,
}

/// Where a capture comes from.
enum Source {
    /// The folder captures/.
    Stored,
    /// A group's generator, with the capture's number and the sums that are stored of it.
    Seeded { group: &'static Group, number: usize, sums: Sums },
}

/// A capture, and what the rule prints of it.
pub struct Capture {
    pub octets: Vec<u8>,
    pub output: String,
}

/// What a group is about.
pub fn about(group: &str) -> &'static str {
    GROUPS.iter().find(|seeded| seeded.name == group).map_or(ABOUT_STORED, |seeded| seeded.about)
}

/// Which set this is, in words.
pub fn named() -> String {
    format!("the conformance set of edition {EDITION}")
}

/// So many captures, in words.
pub fn captures(count: usize) -> String {
    match count {
        1 => String::from("1 capture"),
        count => format!("{count} captures"),
    }
}

/// Captures that stand together, group after group.
pub fn by_group(entries: &[Entry]) -> impl Iterator<Item = &[Entry]> {
    entries.chunk_by(|one, other| one.group == other.group)
}

/// All captures; fails where what is stored of them is not all there.
pub fn all() -> Result<Vec<Entry>, String> {
    let stored = stored::listed()?.into_iter().map(|name| Entry { name, group: STORED, source: Source::Stored });
    Ok(stored.chain(seeded(sums::stored()?)?).collect())
}

/// The seeded captures, each with its sums, of which none is left over.
fn seeded(mut sums: sums::All) -> Result<Vec<Entry>, String> {
    let mut entries = Vec::new();
    for (group, number) in GROUPS.iter().flat_map(|group| (1..=group.captures()).map(move |number| (group, number))) {
        let name = group.capture_name(number);
        let sums = sums.remove(&name).ok_or_else(|| format!("{} has no line for {name}", sums::FILE))?;
        entries.push(Entry { name, group: group.name, source: Source::Seeded { group, number, sums } });
    }
    match sums.keys().next() {
        None => Ok(entries),
        Some(name) => Err(format!("{} has a line for {name}, and no group has such a capture", sums::FILE)),
    }
}

impl Entry {
    /// The capture with what the rule prints of it; fails where either is not what is stored of it.
    pub fn capture(&self) -> Result<Capture, String> {
        let capture = match &self.source {
            Source::Stored => stored_capture(&self.name),
            Source::Seeded { group, number, sums } => seeded_capture(group, *number, sums),
        };
        capture.map_err(|why| format!("{}: {why}", self.name))
    }
}

/// A stored capture, of which the outside program prints its stored output.
fn stored_capture(name: &str) -> Result<Capture, String> {
    let Stored { octets, output, .. } = stored::one(name)?;
    match replay(&octets) == output {
        true => Ok(Capture { octets, output }),
        false => Err(format!("the outside program prints other than captures/{name}.output")),
    }
}

/// A seeded capture, whose sums are the stored ones.
fn seeded_capture(group: &Group, number: usize, stored: &Sums) -> Result<Capture, String> {
    let octets = group.capture(number);
    let output = replay(&octets);
    let made = sums::of(&octets, &output);
    fitting("the capture", stored.capture, made.capture)?;
    fitting("what the outside program prints of it", stored.output, made.output)?;
    Ok(Capture { octets, output })
}

/// Fails where a checksum is not the stored one.
fn fitting(what: &str, stored: Checksum, made: Checksum) -> Result<(), String> {
    match stored == made {
        true => Ok(()),
        false => Err(format!("cksum of {what} is {made}, and {stored} in {}", sums::FILE)),
    }
}

#[cfg(test)]
mod tests {
    use super::*;

    /// The stored sums, of which those of one capture are changed.
    fn changed(name: &str, change: fn(&mut Sums)) -> sums::All {
        let mut all = sums::stored().expect("the sums can be read");
        change(all.get_mut(name).expect("there is such a capture"));
        all
    }

    /// What is told of a seeded capture.
    fn told(all: sums::All, name: &str) -> Result<(), String> {
        let entries = seeded(all).expect("each capture has its sums");
        entries.iter().find(|entry| entry.name == name).expect("there is such a capture").capture().map(|_| ())
    }

    #[test]
    fn sums_that_fit_are_right() {
        assert_eq!(told(changed("fits-002", |_| ()), "fits-002"), Ok(()));
    }

    #[test]
    fn sums_that_do_not_fit_are_told() {
        let Sums { capture, output } = sums::stored().expect("the sums can be read")["fits-002"];
        let wrong = Checksum { check: 7, octets: 16 };
        let told_of = |change: fn(&mut Sums)| told(changed("fits-002", change), "fits-002");
        let of_capture = format!("fits-002: cksum of the capture is {capture}, and {wrong} in conformance/sums");
        assert_eq!(told_of(|sums| sums.capture = Checksum { check: 7, octets: 16 }), Err(of_capture));
        let of_output = format!("fits-002: cksum of what the outside program prints of it is {output}, and {wrong} in conformance/sums");
        assert_eq!(told_of(|sums| sums.output = Checksum { check: 7, octets: 16 }), Err(of_output));
    }

    #[test]
    fn each_capture_has_sums_and_no_others_have() {
        let mut all = sums::stored().expect("the sums can be read");
        let sums = all.remove("fits-002").expect("there is such a capture");
        let told = |all| seeded(all).map(|_| ());
        assert_eq!(told(all.clone()), Err("conformance/sums has no line for fits-002".into()));
        all.insert("fits-002".into(), sums);
        all.insert("fits-999".into(), sums);
        assert_eq!(told(all), Err("conformance/sums has a line for fits-999, and no group has such a capture".into()));
    }
}
