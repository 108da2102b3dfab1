//! What is told of a difference, word for word: of document 01's sample for each sort of line that a program can print, of refused files, of files
//! without events, and of ports with many events.

use std::os::unix::process::ExitStatusExt;
use std::process::ExitStatus;
use std::time::Duration;

use crate::call::Call;
use crate::capture::file;
use crate::capture::stored;
use crate::conformance::difference;
use crate::conformance::telling::Parted;
use crate::model::replay::replay;
use crate::running::{End, Left};

/// What a program left that ended by itself with status 0.
fn left(stdout: &str) -> Left {
    Left { end: End::Status(ExitStatus::from_raw(0)), stdout: stdout.into(), stderr: Vec::new(), input_unread: false }
}

/// What is told of a capture, beside what a program left of it.
fn told(octets: &[u8], left: &Left) -> Vec<String> {
    let output = replay(octets);
    let difference = difference::first(&left.stdout, &output);
    Parted { octets, output: &output, left, difference }.told(Duration::from_secs(10))
}

/// The sample, and what the rule prints of it.
fn sample() -> (Vec<u8>, String) {
    let sample = stored::one("sample").expect("the sample is stored");
    (sample.octets, sample.output)
}

/// What is told of the sample where a program prints other lines in the place of the one of a number, from 1.
fn told_with(number: usize, others: &[&str]) -> Vec<String> {
    let (octets, output) = sample();
    let mut lines: Vec<&str> = output.lines().collect();
    lines.splice(number - 1..number, others.iter().copied());
    told(&octets, &left(&(lines.join("\n") + "\n")))
}

/// The program's line in what is told.
fn program_line(told: &[String]) -> &str {
    told.iter().find_map(|line| line.strip_prefix("the program:  ")).expect("the program's line is told")
}

/// Holds the program's line against what is expected, where it prints this in the place of event 4 of the sample, which joins next with left 100.
#[track_caller]
fn line_is_told(printed: &str, expected: &str) {
    assert_eq!(program_line(&told_with(4, &[printed])), expected);
}

#[test]
fn another_reply_is_told_with_the_steps_and_the_events_before() {
    let expected = [
        "at port 0, event 4: arrive on stream 5, charge 100, tag 8",
        "the rule:     0 4 3 0 2 100   joins next, 100 left",
        "the program:  0 4 3 0 1 0     joins current, 0 left",
        "why the rule says so:",
        "  stream 5, whose P is 200, is at current with left 80, since event 3",
        "  100 is above 80, and the place is not last: it advances to next, and left becomes P, 200",
        "  100 is within what is left: the frame joins next, and left falls to 100",
        "the events of port 0 before it, with the rule's replies:",
        "  1 open with L 2620 and K 1: opens, with a share of 600",
        "  2 reserve for stream 5, P 200: reserves, 400 of the share still free",
        "  3 arrive on stream 5, charge 120, tag 7: joins current, 80 left",
    ];
    assert_eq!(told_with(4, &["0 4 3 0 1 0"]), expected);
}

#[test]
fn the_tick_that_moved_a_stream_is_told() {
    let octets = stored::one("c9").expect("it is stored").octets;
    let lines: Vec<String> = replay(&octets).lines().map(String::from).collect();
    let told = told(&octets, &left(&(lines[..7].join("\n") + "\n")));
    assert_eq!(told[4], "  stream 5, whose P is 200, is at next with left 0, since event 7");
}

#[test]
fn replies_are_told_in_words_or_in_numbers() {
    line_is_told("0 4 3 14 0 0", "0 4 3 14 0 0    refused with 14: discard");
    line_is_told("0 4 3 14 3 0", "0 4 3 14 3 0    replies 14 3 0, which no port replies to this call");
    line_is_told("0 4 3 0 7 100", "0 4 3 0 7 100   replies 0 7 100, which no port replies to this call");
    line_is_told("0 4 3 300 0 0", "0 4 3 300 0 0   replies 300 0 0, which no port replies to this call");
    line_is_told("0 4 3 0 2 4294967296", "0 4 3 0 2 4294967296   replies 0 2 4294967296, which no port replies to this call");
}

#[test]
fn lines_of_another_event_are_told() {
    line_is_told("1 4 3 0 2 100", "1 4 3 0 2 100   prints a line of port 1, event 4, kind 3; the kind of this event is 3");
    line_is_told("0 3 3 0 2 100", "0 3 3 0 2 100   prints a line of port 0, event 3, kind 3; the kind of this event is 3");
    line_is_told("0 4 4 0 2 100", "0 4 4 0 2 100   prints a line of port 0, event 4, kind 4; the kind of this event is 3");
}

#[test]
fn a_line_that_is_left_out_is_told() {
    let told = told_with(4, &[]);
    assert_eq!(told[0], "at port 0, event 4: arrive on stream 5, charge 100, tag 8");
    assert_eq!(program_line(&told), "0 5 6 0 5 7     leaves this line out and prints the one that is due after it");
}

#[test]
fn lines_that_are_no_reply_lines_are_told() {
    let no_reply = "prints no reply line: six numbers, port, event, kind, refusal or 0, and two reply numbers";
    line_is_told("", &format!("an empty line   {no_reply}"));
    line_is_told("it's 'so'", &format!("it's 'so'       {no_reply}"));
    line_is_told("0 4 3 0 2", &format!("0 4 3 0 2       {no_reply}"));
    line_is_told("\u{7f}\u{1}", &format!("\\u{{7f}}\\u{{1}}     {no_reply}"));
    let long = "x".repeat(61);
    line_is_told(&long, &format!("{}…   {no_reply}", &long[1..]));
}

#[test]
fn right_numbers_written_otherwise_are_told() {
    let otherwise = "has the right numbers and is written otherwise than '0 4 3 0 2 100', with one space between and no zeros before them";
    line_is_told("0 04 3 0 2 100", &format!("0 04 3 0 2 100   {otherwise}"));
    line_is_told("0  4 3 0 2 100 ", &format!("0  4 3 0 2 100    {otherwise}"));
}

#[test]
fn ends_of_lines_are_told() {
    let (octets, output) = sample();
    let program = |printed: &str| String::from(program_line(&told(&octets, &left(printed))));
    assert_eq!(program(output.trim_end()), "the same line   no line feed follows it, and every line ends in one");
    let carriage_return = "the same line   ends in a carriage return and a line feed, and a line ends in a line feed alone";
    assert_eq!(program(&output.replace('\n', "\r\n")), carriage_return);
}

#[test]
fn output_that_is_cut_off_is_told() {
    let (octets, _) = sample();
    let lines = |printed: &str| told(&octets, &left(printed))[..3].to_vec();
    let nothing = [
        "at port 0, event 1: open with L 2620 and K 1",
        "the rule:     0 1 1 0 600 0   opens, with a share of 600",
        "the program:  nothing         prints nothing",
    ];
    assert_eq!(lines(""), nothing);
    let no_line = [
        "at port 0, event 2: reserve for stream 5, P 200",
        "the rule:     0 2 2 0 400 0   reserves, 400 of the share still free",
        "the program:  no line         its output ends after line 1",
    ];
    assert_eq!(lines("0 1 1 0 600 0\n"), no_line);
    let cut_off = "0 2 2 0 40 0    reserves, 40 of the share still free; no line feed follows it: the output is cut off there";
    assert_eq!(program_line(&told(&octets, &left("0 1 1 0 600 0\n0 2 2 0 40 0"))), cut_off);
}

#[test]
fn a_line_too_many_is_told() {
    let expected = [
        "after the last event",
        "the rule:     nothing         prints 8 lines and no more",
        "the program:  0 9 6 0 254 0   prints a line more than is due",
    ];
    assert_eq!(told_with(8, &["0 8 6 0 5 8", "0 9 6 0 254 0"]), expected);
}

#[test]
fn a_transmit_is_told_with_where_the_frame_waits() {
    let expected = [
        "at port 0, event 5: transmit",
        "the rule:     0 5 6 0 5 7   sends stream 5, tag 7",
        "the program:  0 5 6 0 5 8   sends stream 5, tag 8",
        "why the rule says so:",
        "  no frame in prior, 1 frame of 120 octets in current, no frame in best effort before it",
        "the frame that the program sends is number 1 of those that wait in next by the rule",
    ];
    assert_eq!(told_with(5, &["0 5 6 0 5 8"])[..6], expected);
    assert_eq!(told_with(5, &["0 5 6 0 9 9"])[5], "the frame that the program sends does not wait by the rule");
    let of_no_frame = ["0 5 6 0 254 0", "0 5 6 1 0 0", "0 6 6 0 5 8"];
    assert!(of_no_frame.iter().all(|line| told_with(5, &[line])[5].starts_with("the events of port 0 before it")));
}

#[test]
fn a_file_that_the_program_refuses_is_told_with_the_record() {
    let expected = [
        "at port 0, event 1: open with L 2620 and K 1",
        "the rule:     0 1 1 0 600 0   opens, with a share of 600",
        "the program:  refused 23 2    the capture is refused with 23: first or next index (record 2)",
        "record 2 of 0 to 8, on the chain of port 0",
        "02 05 00 03 00 00 00 c8 00 00 00 00 00 00 00 00: kind 2, stream octet 5, next index 3, A 200, B 0, zero octets 00 00 00 00",
    ];
    let (octets, _) = sample();
    assert_eq!(told(&octets, &left("refused 23 2\n")), expected);
    assert_eq!(told(&octets, &left("refused 23 9\n"))[3], "the file has 144 octets and no record 9");
    assert_eq!(told(&octets, &left("refused 23 18446744073709551615\n"))[3], "the file has 144 octets and no record 18446744073709551615");
    assert_eq!(program_line(&told(&octets, &left("refused 300 9\n"))), "refused 300 9   refuses the file with no refusal's number");
}

#[test]
fn a_file_that_the_rule_refuses_is_told_with_the_record() {
    let octets = stored::one("refused_24_before_23").expect("it is stored").octets;
    let expected = [
        "at the file, before any event",
        "the rule:     refused 24 3   the capture is refused with 24: kind, stream octet, unused number or zero octets (record 3)",
        "the program:  refused 23 3   the capture is refused with 23: first or next index (record 3)",
        "why the rule says so:",
        "  kind 9 is none of 1 to 7",
        "  the checks run 21, 22, then port after port: its first index, 23, and each record of its chain, 24 and then 23",
        "record 3 of 0 to 8, on the chain of port 0",
        "09 05 00 01 00 00 00 78 00 00 00 07 00 00 00 00: kind 9, stream octet 5, next index 1, A 120, B 7, zero octets 00 00 00 00",
    ];
    assert_eq!(told(&octets, &left("refused 23 3\n")), expected);
    let program = |printed: &str| String::from(program_line(&told(&octets, &left(printed))));
    assert_eq!(program("0 1 1 0 600 0\n"), "0 1 1 0 600 0   plays the file");
    assert_eq!(program("refused 24\n"), "refused 24     prints no line of that form: 'refused', the number and the index of the record");
    assert_eq!(
        program("refused 24 3\nrefused 24 3\n"),
        "refused 24 3   the capture is refused with 24: kind, stream octet, unused number or zero octets (record 3)"
    );
}

#[test]
fn a_line_of_a_file_without_events_is_told() {
    let octets = file::header([0; 4]);
    let expected = [
        "at the file",
        "the rule:     nothing         prints nothing: no port has events",
        "the program:  an empty line   prints a line more than is due",
    ];
    assert_eq!(told(&octets, &left("\n")), expected);
}

#[test]
fn how_a_program_ended_is_told() {
    let (octets, output) = sample();
    let with = |end: End| told(&octets, &Left { end, ..left(&output) });
    let same = "the program prints what the rule does";
    assert_eq!(with(End::Status(ExitStatus::from_raw(11))), [same, "the program ended with signal: 11 (SIGSEGV)"]);
    assert_eq!(with(End::TookTooLong), [same, "the program did not end and close its outputs within 10s, and was ended"]);
    let too_much = Left { end: End::PrintedTooMuch, ..left("y\ny\n") };
    assert_eq!(told(&octets, &too_much)[3], "the program was ended when it had printed 4 octets; 105 are due");
    assert_eq!(
        told(&octets, &Left { end: End::Status(ExitStatus::from_raw(3 << 8)), ..left("") })[3],
        "the program ended with exit status: 3"
    );
}

#[test]
fn what_a_program_says_of_itself_is_told() {
    let (octets, _) = sample();
    let program = Left { stderr: "it's one\n\ntwo\u{1b}\n3\n4\n5\n6\n".into(), input_unread: true, ..left("") };
    let expected = [
        "the program did not read its input to the end",
        "the program told on standard error: it's one",
        "the program told on standard error: two\\u{1b}",
        "the program told on standard error: 3",
        "the program told on standard error: 4",
        "the program told on standard error: 5",
        "why the rule says so:",
        "  the share is L less the largest charge, 2620 − 2020 = 600",
        "it is the first event of port 0",
    ];
    assert_eq!(told(&octets, &program)[3..], expected);
}

#[test]
fn of_many_events_the_last_are_told() {
    let mut events = vec![Call::Open { link: 2_620, delay: 1 }, Call::Reserve { stream: 5, permitted: 200 }];
    events.extend(vec![Call::Tick; 20]);
    let arrival = Call::Arrive { stream: 5, charge: 120, tag: 7 };
    events.extend([arrival.clone(), Call::Tick, arrival]);
    let octets = file::chain([false, true, false, false], &events);
    let lines: Vec<String> = replay(&octets).lines().map(String::from).collect();
    let at_arrival = told(&octets, &left(&(lines[..22].join("\n") + "\n")));
    let heading = "the last 20 of the 22 events of port 1 before it, with the rule's replies:";
    let own = "  2 reserve for stream 5, P 200: reserves, 400 of the share still free, the last of this stream; then";
    assert_eq!(at_arrival[6..9], [heading, own, "  3 tick: purges nothing"]);
    assert_eq!((at_arrival.len(), at_arrival[27].as_str()), (28, "  22 tick: purges nothing"));
    let at_tick = told(&octets, &left(&(lines[..23].join("\n") + "\n")));
    let heading = "the last 20 of the 23 events of port 1 before it, with the rule's replies:";
    assert_eq!(at_tick[5..7], [heading, "  4 tick: purges nothing"]);
    let at_second_arrival = told(&octets, &left(&(lines[..24].join("\n") + "\n")));
    let heading = "the last 20 of the 24 events of port 1 before it, with the rule's replies:";
    assert_eq!(at_second_arrival[6..8], [heading, "  5 tick: purges nothing"]);
}
