//! The stored recordings: each is made anew here, and the tool makes the stored capture of it. captures/README.md derives what that prints by hand.

use std::fs;

use super::made::{tagged, untagged, ADDRESS, ORDINARY};
use crate::capture::stored;
use crate::recording::tool;

/// When the recordings begin, in nanoseconds.
const BEGINS: u64 = 1_700_000_000_000_000_000;

/// The nanoseconds of a microsecond.
const MICROSECOND: u64 = 1_000;

/// The octets 14 and 15 of frames with the VIDs 10, 20 and 30.
const TEN: u16 = 10;
const TWENTY: u16 = 20;
const THIRTY: u16 = 30;

/// A stored recording as it is made here: the name of its files, its packets with their microseconds from the first on, and what the tool tells of
/// it.
struct Made {
    name: &'static str,
    packets: Vec<(u64, Vec<u8>)>,
    told: &'static str,
}

/// All stored recordings.
fn all() -> [Made; 2] {
    [ordinary(), envelope()]
}

/// Two streams and best effort over three epochs' ends, with a frame that is too long and one that is padded.
fn ordinary() -> Made {
    let packets = vec![
        (0, tagged(ADDRESS, TEN, 96)),
        (1, tagged(ADDRESS, TEN, 76)),
        (2, tagged(ADDRESS, TWENTY, 60)),
        (3, untagged(400)),
        (4, untagged(1_997)),
        (5, untagged(46)),
        (100, tagged(ADDRESS, TEN, 176)),
        (101, tagged(ADDRESS, TEN, 60)),
        (199, tagged(ADDRESS, TWENTY, 92)),
        (200, tagged(ADDRESS, 0xc000 | TWENTY, 116)),
        (201, tagged(ADDRESS, THIRTY, 60)),
        (410, tagged(ADDRESS, TEN, 60)),
    ];
    let told = "1 padded to 60 octets: packet 6\n\
                1 refused with 17: frame outside 60 to 1,996 octets, and not in the capture: packet 5\n\
                packets 12: arrivals 8, best effort 3, refused 1, left out 0; padded 1, epochs 4, events 32\n";
    Made { name: "recording", packets, told }
}

/// Frames from 1,518 octets on: those up to 1,996 are taken, on streams and as best effort.
fn envelope() -> Made {
    let packets = vec![
        (0, tagged(ADDRESS, TEN, 1_519)),
        (1, tagged(ADDRESS, TEN, 1_996)),
        (2, tagged(ADDRESS, TEN, 1_997)),
        (3, tagged(ADDRESS, TWENTY, 1_519)),
        (4, tagged(ADDRESS, TWENTY, 1_996)),
        (5, untagged(1_519)),
        (6, untagged(1_996)),
        (7, untagged(1_997)),
        (8, tagged(ADDRESS, TEN, 453)),
        (9, tagged(ADDRESS, TEN, 1_518)),
    ];
    let told = "2 refused with 17: frame outside 60 to 1,996 octets, and not in the capture: packet 3, packet 8\n\
                packets 10: arrivals 6, best effort 2, refused 2, left out 0; padded 0, epochs 2, events 19\n";
    Made { name: "recording_envelope", packets, told }
}

#[test]
fn the_stored_recordings_are_those_that_are_made_here() {
    for Made { name, packets, .. } in all() {
        let packets: Vec<(u64, Vec<u8>)> = packets.into_iter().map(|(time, octets)| (BEGINS + time * MICROSECOND, octets)).collect();
        let stored = stored::recording(name).expect("the recording is there");
        assert!(ORDINARY.recording(&packets) == stored.octets, "{name}: the octets differ");
    }
}

/// The cells of a column in the rows of captures/README.md that end in what an event of the capture of a name prints.
fn derived(name: &str, column: usize) -> String {
    let text = fs::read_to_string(stored::folder().join("README.md")).expect("it can be read");
    let heading = format!("### What `{name}` prints\n");
    let (_, section) = text.split_once(&heading).expect("it is derived");
    let rows = section.split("\n#").next().expect("a section").lines().filter(|row| row.ends_with("` |") && row.contains("| `0 "));
    rows.map(|row| format!("{}\n", row.split('|').nth(column).expect("a cell").trim().trim_matches('`'))).collect()
}

#[test]
fn the_stored_captures_are_those_that_are_derived() {
    for Made { name, .. } in all() {
        let capture = stored::one(name).expect("the capture is there");
        assert_eq!(format!("port 0\n{}", derived(name, 3)), capture.text);
        assert_eq!(derived(name, 5), capture.output);
    }
}

#[test]
fn the_tool_makes_the_stored_captures() {
    for Made { name, told, .. } in all() {
        let recording = stored::recording(name).expect("the recording is there");
        let capture = stored::one(name).expect("the capture is there");
        let words = [recording.plan.to_string_lossy().into_owned()];
        let (mut output, mut errors) = (Vec::new(), Vec::new());
        let status = tool::run(&words, &mut &recording.octets[..], &mut output, &mut errors);
        assert_eq!((status, String::from_utf8_lossy(&errors).as_ref()), (3, told), "{name}");
        assert!(output == capture.octets, "{name}: the octets differ");
    }
}
