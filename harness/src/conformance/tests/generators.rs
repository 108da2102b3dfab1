//! The generators: the set is the one whose sums are stored, each capture is made anew alike, and some are what their group says.

use std::collections::BTreeSet;
use std::fs;
use std::path::Path;

use crate::call::Call;
use crate::capture::stored;
use crate::conformance::checksum::Checksum;
use crate::conformance::groups::{Group, GROUPS};
use crate::conformance::set::{self, STORED};
use crate::conformance::sums;
use crate::model::capture::events;

/// What `cksum` prints of conformance/sums: with another number the set is another one.
const SET: &str = "1431184643 115373";

/// A group by its name.
fn group(name: &str) -> &'static Group {
    GROUPS.iter().find(|group| group.name == name).expect("there is such a group")
}

/// The events of port 0 in a group's capture of a number.
fn events_of(group: &Group, number: usize) -> Vec<Call> {
    events(&group.capture(number)).expect("a good capture").swap_remove(0)
}

#[test]
fn the_set_is_this_one() {
    assert_eq!(Checksum::of(sums::text().as_bytes()).to_string(), SET);
}

#[test]
fn a_capture_is_made_alike_each_time() {
    for group in &GROUPS {
        let last = group.captures();
        assert!(group.capture(1) == group.capture(1) && group.capture(last) == group.capture(last), "{}", group.name);
    }
}

#[test]
fn captures_of_a_group_differ() {
    for group in GROUPS.iter().filter(|group| !["damaged", "without_events"].contains(&group.name)) {
        let captures: BTreeSet<Vec<u8>> = (1..=group.captures()).map(|number| group.capture(number)).collect();
        assert_eq!(captures.len(), group.captures(), "{}", group.name);
    }
}

#[test]
fn every_name_is_one_capture_or_one_group() {
    let entries = set::all().expect("the set can be read");
    let groups = entries.iter().map(|entry| String::from(entry.group)).collect::<BTreeSet<_>>();
    assert_eq!(groups.len(), GROUPS.len() + 1);
    let names: BTreeSet<String> = entries.iter().map(|entry| entry.name.clone()).chain(groups.clone()).collect();
    assert_eq!(names.len(), entries.len() + groups.len());
    let stored_ones = entries.iter().filter(|entry| entry.group == STORED).count();
    assert_eq!(stored_ones, stored::names().expect("the folder can be read").len());
}

/// The README of the set.
fn readme() -> String {
    fs::read_to_string(Path::new(env!("CARGO_MANIFEST_DIR")).join("../conformance/README.md")).expect("the README can be read")
}

#[test]
fn the_readme_says_the_edition_of_the_set() {
    assert!(readme().starts_with(&format!("# Conformance set\n\nEdition {}: ", set::EDITION)));
}

#[test]
fn the_readme_says_how_many_captures_each_group_has() {
    let text = readme();
    let table = text.split("\n\n").find(|part| part.starts_with("| group |")).expect("it has a table of the groups");
    let listed: Vec<String> = table.lines().skip(2).map(|row| row.split(" | ").take(2).collect::<Vec<_>>().join(" ")).collect();
    let entries = set::all().expect("the set can be read");
    let counted: Vec<String> = set::by_group(&entries).map(|group| format!("| `{}` {}", group[0].group, group.len())).collect();
    assert_eq!(listed, counted);
}

#[test]
fn the_phases_of_a_traffic_differ_in_their_ticks_alone() {
    let phases = group("phases");
    let without_ticks = |number| events_of(phases, number).into_iter().filter(|event| *event != Call::Tick).collect::<Vec<_>>();
    let ticks = |number: usize| events_of(phases, number).iter().position(|event| *event == Call::Tick);
    for number in 2..=12 {
        assert_eq!(without_ticks(number), without_ticks(1), "phase {number}");
        assert_eq!(ticks(number), ticks(1).map(|first| first + number - 1), "phase {number}");
    }
    assert_ne!(without_ticks(13), without_ticks(1));
}

#[test]
fn captures_of_best_effort_have_each_delay() {
    let delays: Vec<u32> = (1..=16)
        .map(|number| match events_of(group("best_effort"), number)[0] {
            Call::Open { delay, .. } => delay,
            _ => 0,
        })
        .collect();
    assert_eq!(delays, (1..=16).collect::<Vec<u32>>());
}

#[test]
fn captures_of_links_have_every_l_about_the_ends() {
    let links = group("envelope_openings");
    let of = |number| events(&links.capture(number)).expect("a good capture").into_iter().flatten();
    let asked: BTreeSet<u32> = (1..=links.captures())
        .flat_map(of)
        .filter_map(|event| if let Call::Open { link, .. } = event { Some(link) } else { None })
        .collect();
    for link in (1_625..=1_627).chain(2_019..=2_021).chain(2_100..=2_108).chain(23_045..=23_047).chain(23_520..=23_528) {
        assert!(asked.contains(&link), "{link}");
    }
}

#[test]
fn some_captures_fill_a_file() {
    let longest = (1..=group("ports").captures()).map(|number| group("ports").capture(number).len()).max();
    assert_eq!(longest, Some(65_536));
}
