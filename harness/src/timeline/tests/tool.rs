//! The tool: what it draws, what it says in words, and what it tells of what it cannot draw.

use std::io;

use super::seen::Seen;
use super::SAMPLE;
use crate::capture::{stored, writing};
use crate::timeline::tool::run;
use crate::timeline::MOST;

/// What the tool leaves when it is called with words and an input: status, output, and what it told.
pub fn used(words: &[&str], input: &[u8]) -> (u8, String, String) {
    let words: Vec<String> = words.iter().map(|word| String::from(*word)).collect();
    let (mut output, mut errors) = (Vec::new(), Vec::new());
    let status = run(&words, &mut &input[..], &mut output, &mut errors);
    let text = |octets| String::from_utf8(octets).expect("what is written is text");
    (status, text(output), text(errors))
}

/// The capture of a text that must be good.
fn capture(text: &str) -> Vec<u8> {
    writing::octets(text.as_bytes()).unwrap_or_else(|bad| panic!("{bad}, in\n{text}"))
}

/// What is seen in the picture that the tool draws of a capture.
fn seen(words: &[&str], capture: &[u8]) -> Seen {
    let (status, output, told) = used(words, capture);
    assert_eq!((status, told.as_str()), (0, ""));
    Seen::of(&output)
}

/// The headings of ports in a picture.
fn ports(words: &[&str], capture: &[u8]) -> Vec<String> {
    let seen = seen(words, capture);
    seen.texts().into_iter().filter(|text| text.starts_with("port ") || *text == "no events").map(String::from).collect()
}

/// What the tool tells of what it cannot draw, with status 1 and no output.
fn failed(words: &[&str], capture: &[u8]) -> String {
    let (status, output, told) = used(words, capture);
    assert_eq!((status, output.as_str()), (1, ""));
    told
}

/// A capture of so many events on port 0: an open, a reservation, and arrivals that are discarded sooner or later.
fn long(events: usize) -> Vec<u8> {
    let arrivals: String = (2..events).map(|before| format!("arrive 5 84 {before}\n")).collect();
    capture(&format!("port 0\nopen 2620 1\nreserve 5 200\n{arrivals}"))
}

#[test]
fn ports_stand_one_below_the_other() {
    let four = stored::one("four_ports").expect("the capture can be read").octets;
    let all: Vec<String> = (0..4).map(|port| format!("port {port}, events 1 to 8")).collect();
    assert_eq!(ports(&[], &four), all);
    assert_eq!(seen(&[], &four).bands(), vec![vec!["1", "2", "3", "4", "5", "6", "7", "8"]; 4]);
    assert_eq!(ports(&["--port", "2"], &four), all[2..3]);
}

#[test]
fn ports_without_events_are_left_out_unless_one_is_asked_for() {
    let capture = capture("port 3\ntick\n");
    assert_eq!(ports(&[], &capture), ["port 3, events 1 to 1"]);
    assert_eq!(ports(&["--port", "0"], &capture), ["port 0, no events"]);
    let none = stored::one("no_events").expect("the capture can be read").octets;
    assert_eq!(ports(&[], &none), ["no events"]);
}

#[test]
fn some_events_are_drawn() {
    let sample = capture(SAMPLE);
    assert_eq!(seen(&["--from", "3", "--to", "5"], &sample).bands(), [["3", "4", "5"]]);
    assert_eq!(seen(&["--to", "2"], &sample).bands(), [["1", "2"]]);
    assert_eq!(seen(&["--from", "8", "--to", "4000000000"], &sample).bands(), [["before 8", "8"]]);
    let two = capture("port 0\ntick\nport 1\ntick\ntick\n");
    assert_eq!(ports(&["--from", "2"], &two), ["port 1, events 2 to 2 of 2"]);
}

#[test]
fn the_title_heads_the_picture() {
    let sample = capture(SAMPLE);
    assert_eq!(seen(&["--title", "Frame 8 waits for a tick"], &sample).texts()[..2], ["Frame 8 waits for a tick", "port 0, events 1 to 8"]);
    assert_eq!(seen(&[], &sample).texts()[0], "port 0, events 1 to 8");
}

#[test]
fn a_long_picture_has_bands() {
    let seen = seen(&[], &long(MOST));
    let bands = seen.bands();
    let numbers: Vec<&str> = bands.iter().flatten().copied().filter(|heading| !heading.starts_with("before")).collect();
    assert_eq!(numbers, (1..=MOST).map(|number| number.to_string()).collect::<Vec<String>>());
    assert!(bands.len() > 1 && bands[1..].iter().all(|band| band[0] == format!("before {}", band[1])), "{bands:?}");
}

/// The first event of the second band, of twenty events of which one is a tick, after so many.
fn second_band(before: usize) -> String {
    let transmits = |count: usize| "transmit\n".repeat(count);
    let text = format!("port 0\nopen 2620 1\n{}tick\n{}", transmits(before - 1), transmits(19 - before));
    String::from(seen(&[], &capture(&text)).bands()[1][0])
}

#[test]
fn a_band_begins_with_a_tick_that_is_near() {
    assert_eq!((8..=12).map(second_band).collect::<Vec<String>>(), ["9", "10", "11", "12", "13"]);
    assert_eq!((second_band(7), second_band(13)), (String::from("11"), String::from("11")));
}

#[test]
fn events_are_said_in_words() {
    let said = "port 0\n1 open with L 2620 and K 1: opens, with a share of 600\n\
        2 reserve for stream 5, P 200: reserves, 400 of the share still free\n\
        3 arrive on stream 5, charge 120, tag 7: joins current, 80 left\n4 arrive on stream 5, charge 100, tag 8: joins next, 100 left\n\
        5 transmit: sends stream 5, tag 7\n6 transmit: sends nothing\n7 tick: purges nothing\n8 transmit: sends stream 5, tag 8\n";
    let sample = capture(SAMPLE);
    assert_eq!(used(&["--words"], &sample), (0, String::from(said), String::new()));
    assert_eq!(used(&["--words", "--from", "6", "--to", "6"], &sample).1, "port 0\n6 transmit: sends nothing\n");
    assert_eq!(used(&["--words"], &long(4_095)).1.lines().count(), 4_096);
}

#[test]
fn too_many_events_are_told() {
    let told = "65 events of port 0, 1 to 65, are to be drawn, and a picture shows at most 64; \
        ask for some of them, as with --port 0 --from 1 --to 64, or for the words of all with --words\n";
    assert_eq!(failed(&[], &long(65)), told);
    let full = stored::one("full_file").expect("the capture can be read").octets;
    assert!(failed(&["--from", "100"], &full).starts_with("3996 events of port 0, 100 to 4095, are to be drawn"));
    assert_eq!(
        seen(&["--from", "2", "--to", "65"], &long(65)).bands().concat().iter().filter(|heading| !heading.starts_with("before")).count(),
        64
    );
}

#[test]
fn too_many_frames_that_wait_are_told() {
    let best_effort: String = (0..65).map(|tag| format!("best effort 84 {tag}\n")).collect();
    let capture = capture(&format!("port 0\nopen 23524 1\n{best_effort}transmit\ntransmit\n"));
    let told = "at event 67 of port 0 more than 64 frames wait in best effort, and a picture shows at most 64; \
        ask for other events with --from and --to, or for the words of all with --words\n";
    assert_eq!(failed(&["--from", "67"], &capture), told);
    assert_eq!(seen(&["--from", "68"], &capture).boxes().len(), 65);
}

#[test]
fn a_bad_capture_is_told_in_words() {
    let bad = |name: &str| failed(&[], &stored::one(name).expect("the capture can be read").octets);
    let told = "the capture is refused with 24: kind, stream octet, unused number or zero octets (record 5)\n";
    assert_eq!(bad("refused_24_middle_record"), told);
    let told = "the capture is refused with 21: file length not a multiple of 16, under 16 or over 65,536 (the whole file or the header)\n";
    assert_eq!(bad("refused_21_empty"), told);
    assert_eq!(bad("refused_21_too_long"), told);
}

#[test]
fn an_event_that_is_not_there_is_told() {
    let two = capture("port 0\ntick\nport 1\ntick\ntick\n");
    assert_eq!(failed(&["--from", "3"], &two), "there is no event 3: port 0 has 1, port 1 has 2\n");
    assert_eq!(failed(&["--from", "2", "--port", "0"], &two), "there is no event 2: port 0 has 1\n");
    assert_eq!(failed(&["--from", "2"], &capture("chain\ntick\n")), "there is no event 2: no port has events\n");
}

#[test]
fn wrong_words_are_told() {
    let said = [
        (&["--ports"][..], "'--ports' is no word of this program"),
        (&["--port"], "a port is missing after '--port'"),
        (&["--port", "4"], "'4' is not a port, which is a number from 0 to 3"),
        (&["--from", "0"], "events are numbered from 1"),
        (&["--to"], "an event's number is missing after '--to'"),
        (&["--from", "x"], "'x' is not an event's number, which is a number from 0 to 4294967295"),
        (&["--from", "3", "--to", "2"], "there is no event from 3 to 2"),
        (&["--title"], "a text is missing after '--title'"),
    ];
    for (words, what) in said {
        let (status, output, told) = used(words, &capture(SAMPLE));
        let (first, usage) = told.split_once('\n').expect("two lines are told");
        assert_eq!((status, output.as_str(), first), (2, "", what));
        assert!(usage.starts_with("usage: timeline "), "{usage}");
    }
}

/// An input and output that fails.
struct Broken;

impl io::Read for Broken {
    fn read(&mut self, _: &mut [u8]) -> io::Result<usize> {
        Err(io::Error::other("broken"))
    }
}

impl io::Write for Broken {
    fn write(&mut self, _: &[u8]) -> io::Result<usize> {
        Err(io::Error::other("broken"))
    }

    fn flush(&mut self) -> io::Result<()> {
        Ok(())
    }
}

#[test]
fn failing_input_and_output_are_told() {
    let mut errors = Vec::new();
    assert_eq!(run(&[], &mut Broken, &mut Vec::new(), &mut errors), 1);
    assert_eq!(run(&[], &mut &capture(SAMPLE)[..], &mut Broken, &mut errors), 1);
    assert_eq!(errors, b"standard input: broken\nstandard output: broken\n");
    assert_eq!(run(&[], &mut Broken, &mut Broken, &mut Broken), 1);
}
