//! The report of a capture that parts from the rule: what is told of it, and the files that are written, so that a person can look at it and run the
//! program on it by hand.

use std::time::Duration;

use crate::capture::{reading, stored};
use crate::conformance::difference::Difference;
use crate::conformance::folder::Folder;
use crate::conformance::playing::{Due, Playing};
use crate::conformance::set::{Capture, Entry};
use crate::conformance::telling::{Parted, TOLD_EVENTS};
use crate::running::Left;
use crate::timeline::{self, TooMany};

/// The ending of the file with what the program printed of a capture.
const PRINTED: &str = "printed";
/// The ending of the file with the picture of its events.
const PICTURE: &str = "svg";

/// What a program is run with: its words, how long it may take, and the folder for what is written.
pub struct Program<'a> {
    pub words: &'a [String],
    pub limit: Duration,
    pub folder: &'a Folder,
}

/// The report in lines; its files are written.
pub fn report(entry: &Entry, capture: &Capture, left: &Left, difference: Option<Difference>, program: &Program) -> Vec<String> {
    let parted = Parted { octets: &capture.octets, output: &capture.output, left, difference };
    let mut lines = parted.told(program.limit);
    lines.extend(written(&entry.name, &parted, program.folder));
    lines.push(format!("by hand: {}", by_hand(&entry.name, program)));
    let heading = format!("capture {} of group {} parts from the rule", entry.name, entry.group);
    [heading].into_iter().chain(lines.into_iter().map(|line| format!("  {line}"))).collect()
}

/// Writes the files of a capture, and tells where they are or why not.
fn written(name: &str, parted: &Parted, folder: &Folder) -> Vec<String> {
    let text = reading::text(parted.octets);
    let mut lines = vec![
        file(folder, name, "the capture", stored::CAPTURE, parted.octets),
        file(folder, name, "the capture as text", stored::TEXT, text.as_bytes()),
        file(folder, name, "what the rule prints", stored::OUTPUT, parted.output.as_bytes()),
        file(folder, name, "what the program printed", PRINTED, &parted.left.stdout),
    ];
    lines.extend(picture(name, parted).map(|picture| match picture {
        Ok(picture) => file(folder, name, "a picture of the events", PICTURE, picture.as_bytes()),
        Err(why) => format!("a picture of the events: none, since {why}"),
    }));
    lines
}

/// Writes one file of a capture, and tells where it is or why not.
fn file(folder: &Folder, name: &str, what: &str, ending: &str, octets: &[u8]) -> String {
    match folder.write(name, ending, octets) {
        Ok(path) => format!("{what}: {}", path.display()),
        Err(why) => format!("{what}: {why}"),
    }
}

/// The picture of the event at which the two part and of those before it, where they part at an event.
fn picture(name: &str, parted: &Parted) -> Option<Result<String, TooMany>> {
    let playing = Playing::of(parted.octets);
    match playing.due(parted.difference.as_ref()?.line) {
        Due::Event(event) => {
            let first = event.number.saturating_sub(TOLD_EVENTS).max(1);
            let title =
                format!("capture {name}: the rule up to event {} of port {}, at which the program parts from it", event.number, event.port);
            Some(timeline::drawn(event.port, playing.up_to(event.port, event.number), first..=event.number, &title))
        }
        Due::Refused(_) | Due::Nothing => None,
    }
}

/// The words with which a person runs the program on the capture and sees the difference.
fn by_hand(name: &str, program: &Program) -> String {
    let words: Vec<String> = program.words.iter().map(|word| quoted(word)).collect();
    let path = |ending| quoted(&program.folder.file(name, ending).display().to_string());
    format!("{} < {} | diff {} -", words.join(" "), path(stored::CAPTURE), path(stored::OUTPUT))
}

/// A word as a shell takes it.
fn quoted(word: &str) -> String {
    let plain = |letter: char| letter.is_ascii_alphanumeric() || "-_./=:,+@%".contains(letter);
    match !word.is_empty() && word.chars().all(plain) {
        true => String::from(word),
        false => format!("'{}'", word.replace('\'', r"'\''")),
    }
}
