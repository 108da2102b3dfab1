//! The text form: what its lines mean, that both ways are exact, and what is said of a bad text.

use super::file::{header, put_next_index, record, Record};
use super::{reading, stored, tool, writing};
use crate::call::Call;
use crate::comparing::random::Random;
use crate::model::capture::PORTS;
use crate::model::replay::replay;

/// Document 01's sample as a person writes it.
const SAMPLE: &str = "port 0\nopen 2620 1\nreserve 5 200\narrive 5 120 7\narrive 5 100 8\ntransmit\ntransmit\ntick\ntransmit\n";

/// The octets of document 01's sample, written out by hand from its "Capture file".
const SAMPLE_OCTETS: [[u8; 16]; 9] = [
    [b'E', b'P', b'C', b'H', 0, 1, 0, 0, 0, 0, 0, 0, 0, 0, 0, 0],
    [1, 0, 0, 2, 0, 0, 10, 60, 0, 0, 0, 1, 0, 0, 0, 0],
    [2, 5, 0, 3, 0, 0, 0, 200, 0, 0, 0, 0, 0, 0, 0, 0],
    [3, 5, 0, 4, 0, 0, 0, 120, 0, 0, 0, 7, 0, 0, 0, 0],
    [3, 5, 0, 5, 0, 0, 0, 100, 0, 0, 0, 8, 0, 0, 0, 0],
    [6, 0, 0, 6, 0, 0, 0, 0, 0, 0, 0, 0, 0, 0, 0, 0],
    [6, 0, 0, 7, 0, 0, 0, 0, 0, 0, 0, 0, 0, 0, 0, 0],
    [5, 0, 0, 8, 0, 0, 0, 0, 0, 0, 0, 0, 0, 0, 0, 0],
    [6, 0, 0, 0, 0, 0, 0, 0, 0, 0, 0, 0, 0, 0, 0, 0],
];

/// The capture of a text that must be good.
fn written(text: &str) -> Vec<u8> {
    writing::octets(text.as_bytes()).unwrap_or_else(|bad| panic!("{bad}, in\n{text}"))
}

/// A capture is read to just this text, and the text is written to just that capture.
fn exact(capture: &[u8], text: &str) {
    assert_eq!(reading::text(capture), text);
    assert_eq!(written(text), capture);
}

/// A capture comes back through its text form.
fn comes_back(capture: &[u8]) {
    let text = reading::text(capture);
    assert_eq!(written(&text), capture, "{text}");
}

/// What is said of a bad text.
fn said_of(text: &[u8]) -> String {
    writing::octets(text).expect_err("a bad text").to_string()
}

#[test]
fn the_sample_is_read_and_written() {
    exact(&SAMPLE_OCTETS.concat(), SAMPLE);
}

#[test]
fn every_kind_has_its_octets() {
    let large = 0x0102_0304;
    assert_eq!(record(&Call::Open { link: large, delay: 1 }, 0x0506), [1, 0, 5, 6, 1, 2, 3, 4, 0, 0, 0, 1, 0, 0, 0, 0]);
    assert_eq!(record(&Call::Reserve { stream: 255, permitted: large }, 0), [2, 255, 0, 0, 1, 2, 3, 4, 0, 0, 0, 0, 0, 0, 0, 0]);
    assert_eq!(record(&Call::Arrive { stream: 9, charge: 84, tag: large }, 1), [3, 9, 0, 1, 0, 0, 0, 84, 1, 2, 3, 4, 0, 0, 0, 0]);
    assert_eq!(record(&Call::BestEffort { charge: large, tag: 7 }, 2), [4, 255, 0, 2, 1, 2, 3, 4, 0, 0, 0, 7, 0, 0, 0, 0]);
    assert_eq!(record(&Call::Tick, 3), [5, 0, 0, 3, 0, 0, 0, 0, 0, 0, 0, 0, 0, 0, 0, 0]);
    assert_eq!(record(&Call::Transmit, 4), [6, 0, 0, 4, 0, 0, 0, 0, 0, 0, 0, 0, 0, 0, 0, 0]);
    assert_eq!(record(&Call::Withdraw { stream: 255 }, 5), [7, 255, 0, 5, 0, 0, 0, 0, 0, 0, 0, 0, 0, 0, 0, 0]);
}

#[test]
fn a_withdrawal_is_read_and_written() {
    let records =
        [record(&Call::Withdraw { stream: 0 }, 2), record(&Call::Withdraw { stream: 63 }, 3), record(&Call::Withdraw { stream: 64 }, 1)];
    let capture = [&[header([1, 0, 0, 0])][..], &records].concat().concat();
    exact(&capture, "port 0\nwithdraw 0\nwithdraw 63\nwithdraw 64 next 1\n");
}

#[test]
fn a_withdrawal_with_a_number_is_octets() {
    let withdrawal = record(&Call::Withdraw { stream: 5 }, 0);
    for (at, digits) in
        [(7, "07050000000000010000000000000000"), (11, "07050000000000000000000100000000"), (4, "07050000010000000000000000000000")]
    {
        let mut bad = withdrawal;
        bad[at] = 1;
        exact(&[header([1, 0, 0, 0]), bad].concat(), &format!("port 0\noctets {digits}\n"));
    }
}

#[test]
fn a_header_alone_is_an_empty_text() {
    exact(&header([0; PORTS]), "");
}

#[test]
fn ports_share_a_run_and_others_have_their_own() {
    let records = [record(&Call::Tick, 2), record(&Call::Tick, 0), record(&Call::Transmit, 0), record(&Call::Tick, 0)];
    let capture = [&[header([1, 3, 1, 0])][..], &records].concat().concat();
    exact(&capture, "port 0 2\ntick\ntick\nport 1\ntransmit\nchain\ntick\n");
}

#[test]
fn a_next_index_that_is_not_the_following_record_is_said() {
    let records = [record(&Call::Tick, 3), record(&Call::Transmit, 3), record(&Call::BestEffort { charge: 84, tag: 7 }, 9)];
    let capture = [&[header([1, 2, 3, 0])][..], &records].concat().concat();
    exact(&capture, "first 2 3\nport 0\ntick next 3\nport 1\ntransmit\nbest effort 84 7 next 9\n");
}

#[test]
fn a_first_index_that_is_no_front_is_said() {
    let records = [record(&Call::Tick, 2), record(&Call::Tick, 0)];
    let capture = [&[header([1, 2, 3, 65_535])][..], &records].concat().concat();
    exact(&capture, "first 1 2\nfirst 2 3\nfirst 3 65535\nport 0\ntick\ntick\n");
}

#[test]
fn what_no_event_line_says_is_octets() {
    let mut bad = record(&Call::Tick, 2);
    bad[15] = 0xAB;
    let capture = [header([1, 0, 0, 0]), bad, record(&Call::Tick, 0)].concat();
    exact(&capture, "port 0\noctets 050000020000000000000000000000ab\ntick\n");
    exact(&capture[..40], "port 0\noctets 050000020000000000000000000000ab\noctets 0500000000000000\n");
}

#[test]
fn a_header_with_a_fault_is_digits() {
    let mut bad = header([1, 0, 0, 0]);
    bad[0] = b'e';
    exact(&[bad, record(&Call::Tick, 0)].concat(), "header 65504348000100000000000000000000\nchain\ntick\n");
    exact(b"EPC", "header 455043\n");
    exact(b"", "header\n");
}

#[test]
fn comments_blank_lines_and_spaces_are_left_out() {
    let text = "# the sample\n\n  port   0 # of one port\n\topen 2620 1\r\n\ntick#\n#";
    assert_eq!(reading::text(&written(text)), "port 0\nopen 2620 1\ntick\n");
}

#[test]
fn an_index_outright_may_come_anywhere_and_digits_in_either_case() {
    let text = "port 0\ntick\nfirst 1 1\noctets 050000020000000000000000000000AB";
    assert_eq!(reading::text(&written(text)), "port 0 1\ntick\noctets 050000020000000000000000000000ab\n");
}

#[test]
fn a_next_index_that_is_said_stays_within_a_run() {
    let bad = [8, 0, 0, 1, 0, 0, 0, 0, 0, 0, 0, 0, 0, 0, 0, 0];
    let text = "port 0\ntick next 3\noctets 08000001000000000000000000000000\ntransmit\ntick";
    let records = [header([1, 0, 0, 0]), record(&Call::Tick, 3), bad, record(&Call::Transmit, 4), record(&Call::Tick, 0)];
    assert_eq!(written(text), records.concat());
}

#[test]
fn any_octets_come_back() {
    for number in 0..2_000 {
        let mut random = Random::of(1, "any_octets_come_back", number);
        let mut octets = vec![0; random.below(200)];
        random.fill(&mut octets);
        comes_back(&octets);
        if octets.len() >= 16 {
            octets[..16].copy_from_slice(&header([random.below(12) as u16, 0, random.below(12) as u16, 1]));
            comes_back(&octets);
        }
    }
}

#[test]
fn captures_with_few_octets_changed_come_back() {
    for number in 0..2_000 {
        let mut random = Random::of(1, "captures_with_few_octets_changed_come_back", number);
        let mut octets = any_capture(&mut random).concat();
        for _ in 0..random.below(4) {
            let at = random.below(octets.len());
            octets[at] = random.other_octet(octets[at]);
        }
        octets.truncate(octets.len() - random.below(40).saturating_sub(24));
        comes_back(&octets);
    }
}

/// A capture of few records with any indices, most often good ones.
fn any_capture(random: &mut Random) -> Vec<Record> {
    let events = [
        Call::Tick,
        Call::Arrive { stream: 5, charge: 84, tag: 7 },
        Call::Open { link: 2_620, delay: 1 },
        Call::Transmit,
        Call::Withdraw { stream: 5 },
    ];
    let count = random.between(1..=9) as u16;
    let mut records = vec![header([0; PORTS].map(|_| random.below(usize::from(count) + 3) as u16))];
    for index in 1..=count {
        let mut octets = record(&random.pick(&events), 0);
        put_next_index(&mut octets, random.pick(&[0, index + 1, index + 1, index + 1, index + 2, count]));
        records.push(octets);
    }
    records
}

#[test]
fn a_file_with_more_records_than_an_index_can_name_comes_back() {
    let records = (0..65_540).map(|before: u32| record(&Call::Tick, (before + 2).min(65_535) as u16));
    let octets: Vec<u8> = [header([1, 0, 0, 0])].into_iter().chain(records).flatten().collect();
    comes_back(&octets);
}

#[test]
fn bad_text_gets_its_line_and_what_is_wrong() {
    let said = [
        ("port 0\nopen 2620", "line 2: a K is missing"),
        ("port 0\nopen", "line 2: an L is missing"),
        ("port 0\nreserve", "line 2: a stream is missing"),
        ("port 0\nreserve 5", "line 2: a P is missing"),
        ("port 0\n# a comment\n\narrive 5", "line 4: a charge is missing"),
        ("port 0\narrive 5 120", "line 2: a tag is missing"),
        ("port 0\nbest 120 7", "line 2: 'effort' is missing after 'best'"),
        ("port 0\nbest effort 120", "line 2: a tag is missing"),
        ("port 0\narrive 256 120 7", "line 2: '256' is not a stream, which is a number from 0 to 255"),
        ("port 0\narrive 5 4294967296 7", "line 2: '4294967296' is not a charge, which is a number from 0 to 4294967295"),
        ("port 0\nreserve 5 +200", "line 2: '+200' is not a P, which is a number from 0 to 4294967295"),
        ("port 0\nreserve 5 -1", "line 2: '-1' is not a P, which is a number from 0 to 4294967295"),
        ("port 0\nwithdraw", "line 2: a stream is missing"),
        ("port 0\nwithdraw 5 200", "line 2: '200' is one word too many"),
        ("port 0\nwithdraw 256", "line 2: '256' is not a stream, which is a number from 0 to 255"),
        ("port 0\nwithdraw next 2", "line 2: 'next' is not a stream, which is a number from 0 to 255"),
        ("port 0\nwithdraw 5 next", "line 2: a next index is missing"),
        ("port 0\ntick 7", "line 2: '7' is one word too many"),
        ("port 0\ntick next", "line 2: a next index is missing"),
        ("port 0\ntick next 65536", "line 2: '65536' is not a next index, which is a number from 0 to 65535"),
        ("port 0\ntick next 1 2", "line 2: '2' is one word too many"),
        ("port 0\ntack", "line 2: 'tack' begins no line"),
        ("tick", "line 1: a record comes after the line of a port or a chain"),
        ("port", "line 1: a port is missing"),
        ("port 4\ntick", "line 1: '4' is not a port, which is a number from 0 to 3"),
        ("port 0 x\ntick", "line 1: 'x' is not a port, which is a number from 0 to 3"),
        ("port 0\ntick\nport 1 0\ntick", "line 3: port 0 has a first index already"),
        ("port 2\ntick\nfirst 2 1", "line 3: port 2 has a first index already"),
        ("first 0", "line 1: a first index is missing"),
        ("first 0 70000", "line 1: '70000' is not a first index, which is a number from 0 to 65535"),
        ("port 0\nchain\ntick", "line 2: no record follows the line of a port or a chain"),
        ("port 0\ntick\nchain\n# no more\n", "line 3: no record follows the line of a port or a chain"),
        ("chain now\ntick", "line 1: 'now' is one word too many"),
    ];
    for (text, what) in said {
        assert_eq!(said_of(text.as_bytes()), what, "of {text:?}");
    }
}

#[test]
fn bad_octets_get_their_line_and_what_is_wrong() {
    let (whole, header) = ("05".repeat(16), "header 45504348000000000000000000000001");
    let said = [
        (String::from("port 0\noctets"), "line 2: hexadecimal digits are missing"),
        (String::from("port 0\ntick\noctets 0"), "line 3: an octet has two hexadecimal digits, and the last one has one"),
        (String::from("port 0\ntick\noctets 0g"), "line 3: 'g' is no hexadecimal digit"),
        (format!("port 0\noctets {whole}05"), "line 2: there are more than 16 octets"),
        (format!("octets {whole}"), "line 1: a record comes after the line of a port or a chain"),
        (String::from("port 0\noctets 05"), "line 2: no record follows the line of a port or a chain"),
        (format!("octets 05\nport 0\noctets {whole}"), "line 2: only the last octets can be fewer than a record's 16"),
        (String::from("header 45\nchain\ntick"), "line 2: only the last octets can be fewer than a record's 16"),
        (format!("port 0\ntick\n{header}"), "line 3: a header comes first"),
        (format!("first 0 1\n{header}"), "line 2: a header comes first"),
        (format!("chain\ntick\n{header}"), "line 3: a header comes first"),
        (format!("{header}\n{header}"), "line 2: a header comes first"),
        (format!("{header}\nport 0\ntick"), "line 2: the header gives the first indices"),
        (format!("{header}\nfirst 0 1"), "line 2: the header gives the first indices"),
        (format!("{header} 00"), "line 1: '00' is one word too many"),
    ];
    for (text, what) in said {
        assert_eq!(said_of(text.as_bytes()), what, "of {text:?}");
    }
    assert_eq!(said_of(b"port 0\n\xFFtick"), "line 2: it is not text");
}

#[test]
fn a_record_past_the_last_index_cannot_be_linked_to() {
    let text = format!("port 0\n{}", "tick\n".repeat(65_536));
    assert_eq!(said_of(text.as_bytes()), "line 65537: record 65536 is past the last that a record can name, 65535");
    let text = format!("port 0\n{}port 1\ntick\n", "tick next 0\n".repeat(65_535));
    assert_eq!(said_of(text.as_bytes()), "line 65537: record 65536 is past the last that a port can start at, 65535");
}

#[test]
fn stored_captures_and_their_texts_are_the_same() {
    for stored in stored::all().expect("the stored captures can be read") {
        exact(&stored.octets, &stored.text);
    }
}

#[test]
fn the_outside_program_prints_the_stored_outputs() {
    for stored in stored::all().expect("the stored captures can be read") {
        assert_eq!(replay(&stored.octets), stored.output, "{}", stored.name);
    }
}

#[test]
fn every_stored_capture_is_listed_once() {
    let names = stored::names().expect("the folder can be read");
    assert!(!names.is_empty());
    let mut listed = stored::listed().expect("the list can be read");
    listed.sort();
    assert_eq!(listed, names);
}

/// What the tool leaves when it is called with words and an input: status, output, and what it told.
fn used(words: &[&str], input: &[u8]) -> (u8, Vec<u8>, String) {
    let words: Vec<String> = words.iter().map(|word| String::from(*word)).collect();
    let (mut output, mut errors) = (Vec::new(), Vec::new());
    let status = tool::run(&words, &mut &input[..], &mut output, &mut errors);
    (status, output, String::from_utf8(errors).expect("what is told is text"))
}

#[test]
fn the_tool_turns_both_ways() {
    let capture = SAMPLE_OCTETS.concat();
    assert_eq!(used(&["write"], SAMPLE.as_bytes()), (0, capture.clone(), String::new()));
    assert_eq!(used(&["read"], &capture), (0, SAMPLE.into(), String::new()));
}

#[test]
fn the_tool_writes_nothing_of_a_bad_text() {
    let (status, output, told) = used(&["write"], b"port 0\ntick\narrive 5\n");
    assert_eq!((status, output, told.as_str()), (1, Vec::new(), "line 3: a charge is missing\n"));
}

#[test]
fn the_tool_tells_how_it_is_called() {
    for words in [&[][..], &["turn"], &["read", "write"]] {
        let (status, output, told) = used(words, b"");
        assert!(status == 2 && output.is_empty() && told.starts_with("usage: capture"), "{words:?}: {told}");
    }
}
