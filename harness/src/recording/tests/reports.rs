//! What the tool tells, its statuses, and captures that are full.

use std::fs;
use std::io::{self, Write};

use super::made::{captured, events_of, streamed, untagged, NANOSECONDS, PLAN};
use crate::capture::stored;
use crate::recording::report::Report;
use crate::recording::tool;

/// So many packets at one time, then more with their times. After the first, which is sent at once, 27 wait and the others are refused by the port.
fn crowded(packets: usize, more: &[(u64, Vec<u8>)]) -> Report {
    let packets: Vec<(u64, Vec<u8>)> = (0..packets).map(|_| (0, untagged(60))).chain(more.iter().cloned()).collect();
    let (events, report) = events_of(PLAN, &packets);
    assert_eq!(report.events, events.len());
    report
}

#[test]
fn a_capture_may_be_just_full() {
    // Open and Reserve, the packets, the transmit of the first and those of the 27 that wait.
    let report = crowded(4_065, &[]);
    assert_eq!((report.events, report.best_effort, report.waiting, report.is_whole()), (4_095, 4_065, 0, true));
    let report = crowded(4_064, &[]);
    assert_eq!((report.events, report.best_effort, report.waiting, report.is_whole()), (4_094, 4_064, 0, true));
}

#[test]
fn transmits_without_room_are_told() {
    let report = crowded(4_066, &[]);
    assert_eq!((report.events, report.best_effort, report.waiting, report.is_whole()), (4_095, 4_066, 1, false));
    let report = crowded(4_092, &[]);
    assert_eq!((report.events, report.best_effort, report.waiting, report.is_whole()), (4_095, 4_092, 27, false));
    assert_eq!(report.left_out.count, 0);
    let told = "27 accepted and not sent, since a capture has at most 4095 events\n\
                packets 4092: arrivals 0, best effort 4092, refused 0, left out 0; padded 0, epochs 1, events 4095";
    assert_eq!(report.to_string(), told);
}

#[test]
fn packets_without_room_are_told() {
    let report = crowded(4_093, &[]);
    assert_eq!((report.events, report.best_effort, report.left_out.count, report.is_whole()), (4_095, 4_092, 1, false));
    let report = crowded(4_100, &[(0, untagged(1_997)), (0, untagged(14)), (5, streamed(60))]);
    let told = "11 left out, since a capture has at most 4095 events: packet 4093 and all after it\n\
                packets 4103: arrivals 0, best effort 4092, refused 0, left out 11; padded 0, epochs 1, events 4095";
    assert_eq!(report.to_string(), told);
}

#[test]
fn a_silence_may_fill_a_capture() {
    let day = 86_400_000_000_000;
    let (events, report) = events_of(PLAN, &[(0, untagged(60)), (day, untagged(60)), (day, untagged(60))]);
    assert_eq!((events.len(), report.best_effort, report.left_out.count), (4_095, 1, 2));
    assert_eq!((report.left_out.first, report.epochs), (vec![2, 3], 2_046));
}

#[test]
fn a_capture_that_is_full_has_the_events_before() {
    let packets = |count: usize| -> Vec<(u64, Vec<u8>)> { (0..count).map(|number| (4_000 * number as u64, streamed(60))).collect() };
    let (some, full) = (events_of(PLAN, &packets(1_500)).0, events_of(PLAN, &packets(3_000)).0);
    let last = some.iter().position(|call| call.to_string() == "arrive 5 84 1500").expect("the last packet is there");
    assert_eq!((full.len(), &full[..=last]), (4_095, &some[..=last]));
    assert!(last > 2_000 && full[last..].iter().any(|call| call.to_string() == "arrive 5 84 1501"));
}

#[test]
fn the_first_few_packets_are_named() {
    let long = |count: usize| -> Vec<(u64, Vec<u8>)> { (0..count).map(|_| (9, untagged(1_997))).collect() };
    let first_line = |count: usize| String::from(events_of(PLAN, &long(count)).1.to_string().lines().next().expect("a line"));
    let told = "refused with 17: frame outside 60 to 1,996 octets, and not in the capture: packet 1";
    assert_eq!(first_line(1), format!("1 {told}"));
    assert_eq!(first_line(5), format!("5 {told}, packet 2, packet 3, packet 4, packet 5"));
    assert_eq!(first_line(6), format!("6 {told}, packet 2, packet 3, packet 4, packet 5 and more"));
}

#[test]
fn padded_and_earlier_packets_are_told() {
    let packets = [(9, untagged(46)), (8, streamed(59)), (7, untagged(60))];
    let told = "2 padded to 60 octets: packet 1, packet 2\n\
                2 earlier than a packet before, and taken as of its time: packet 2, packet 3\n\
                packets 3: arrivals 1, best effort 2, refused 0, left out 0; padded 2, epochs 1, events 8";
    let (_, report) = captured(PLAN, &NANOSECONDS.recording(&packets));
    assert_eq!(report.to_string(), told);
    assert!(report.is_whole());
}

/// What the tool leaves when it is called with words and an input: status, output, and what it told.
fn used(words: &[&str], input: &[u8]) -> (u8, Vec<u8>, String) {
    let words: Vec<String> = words.iter().map(|word| String::from(*word)).collect();
    let (mut output, mut errors) = (Vec::new(), Vec::new());
    let status = tool::run(&words, &mut &input[..], &mut output, &mut errors);
    (status, output, String::from_utf8(errors).expect("what is told is text"))
}

/// The path of a stored file.
fn stored_path(file: &str) -> String {
    stored::folder().join(file).to_string_lossy().into_owned()
}

#[test]
fn a_capture_of_all_packets_is_status_0() {
    let plan = stored_path("recording.plan");
    let recording = NANOSECONDS.recording(&[(0, untagged(60))]);
    let (status, output, told) = used(&[&plan], &recording);
    let text = fs::read_to_string(&plan).expect("the plan can be read");
    assert_eq!((status, output), (0, captured(&text, &recording).0));
    assert_eq!(told, "packets 1: arrivals 0, best effort 1, refused 0, left out 0; padded 0, epochs 1, events 5\n");
}

#[test]
fn a_capture_without_some_packets_is_status_3() {
    let (status, output, told) = used(&[&stored_path("recording.plan")], &NANOSECONDS.recording(&[(0, untagged(1_997))]));
    assert_eq!((status, output.len()), (3, 64));
    assert!(told.starts_with("1 refused with 17"), "{told}");
}

#[test]
fn nothing_is_written_of_a_bad_recording_or_plan() {
    let recording = NANOSECONDS.recording(&[(0, untagged(60)), (0, untagged(60))]);
    let plan = stored_path("recording.plan");
    let (status, output, told) = used(&[&plan], &recording[..recording.len() - 1]);
    let said = "packet 2, at octet 100: the file ends after 59 of the 60 octets that are kept\n";
    assert_eq!((status, output, told.as_str()), (1, vec![], said));
    let (status, output, told) = used(&[&plan], b"");
    assert_eq!((status, output.len()), (1, 0));
    assert!(told.starts_with("the recording's header, at octet 0: "), "{told}");
    let text = stored_path("sample.text");
    let said = format!("{text}: line 1: 'port' begins no line of a plan\n");
    assert_eq!(used(&[&text], &recording), (1, vec![], said));
    let (status, output, told) = used(&["no such plan"], &recording);
    assert_eq!((status, output.len()), (1, 0));
    assert!(told.starts_with("no such plan: "), "{told}");
}

#[test]
fn wrong_words_are_status_2() {
    for words in [&[][..], &["--help"], &["a", "b"]] {
        let told = String::from("usage: recording PLAN < RECORDING > CAPTURE\n");
        assert_eq!(used(words, b""), (2, vec![], told), "{words:?}");
    }
}

/// An output that takes nothing.
struct Closed;

impl Write for Closed {
    fn write(&mut self, _: &[u8]) -> io::Result<usize> {
        Err(io::Error::other("no room"))
    }

    fn flush(&mut self) -> io::Result<()> {
        Ok(())
    }
}

#[test]
fn an_output_that_fails_is_told() {
    let (words, mut errors) = ([stored_path("recording.plan")], Vec::new());
    let recording = NANOSECONDS.recording(&[(0, untagged(60))]);
    assert_eq!(tool::run(&words, &mut &recording[..], &mut Closed, &mut errors), 1);
    assert_eq!(errors, b"standard output: no room\n");
}
