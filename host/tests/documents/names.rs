//! The names, numbers and words of the refusals, also of those that no port meets, and the numbers and registers that the header defines too.

use bunnysolder::{Control, Flags, Refusal, Register, Status, EDITION, LONGEST_FRAME, SHORTEST_FRAME, STREAMS};

/// The header for C.
const HEADER: &str = include_str!("../../../include/bunnysolder.h");

/// The refusals are those of the header, with its names and numbers, and there is no other.
#[test]
fn refusals_are_those_of_the_header() {
    let refusals = (u8::MIN..=u8::MAX).filter_map(Refusal::from_number);
    let names: Vec<(u32, String)> = refusals.map(|refusal| (u32::from(refusal.number()), format!("{refusal:?}"))).collect();
    assert_eq!(names, of_header("refusal", "").split_off(1)); // the first is 0, a grant
}

/// The registers are those of the header, with its names and offsets, and there is no other.
#[test]
fn registers_are_those_of_the_header() {
    let registers = (0..=u32::from(u8::MAX)).filter_map(Register::from_offset);
    let names: Vec<(u32, String)> = registers.map(|register| (register.offset(), format!("{register:?}"))).collect();
    assert_eq!(names, of_header("register", "REGISTER_"));
}

/// The bits of control, status and flags are those of the header.
#[test]
fn bits_are_those_of_the_header() {
    let control = [Control { tick: true, transmit: false }, Control { tick: false, transmit: true }].map(Control::bits);
    assert_eq!(of_header("control", "CONTROL_"), named(["Tick", "Transmit"], control));
    let status = [Status { open: true, interrupt: false }, Status { open: false, interrupt: true }].map(Status::bits);
    assert_eq!(of_header("status", "STATUS_"), named(["Open", "Interrupt"], status));
    let (discard, purge) = (Flags { discard: true, ..Flags::default() }, Flags { purge: true, ..Flags::default() });
    let flags = [discard, purge, Flags { nothing: true, ..Flags::default() }].map(Flags::bits);
    assert_eq!(of_header("flag", "FLAG_"), named(["Discard", "Purge", "Nothing"], flags));
}

/// Each number with its name.
fn named<const N: usize>(names: [&str; N], numbers: [u32; N]) -> Vec<(u32, String)> {
    numbers.into_iter().zip(names.map(str::to_string)).collect()
}

/// Number and name of each entry of an enum of the header, without the front that its names have in common.
fn of_header(name: &str, front: &str) -> Vec<(u32, String)> {
    let entries = HEADER.split_once(&format!("enum bunnysolder_{name} {{")).and_then(|(_, after)| after.split_once("};"));
    let entries = entries.expect("the header has the enum").0.split("BUNNYSOLDER_").filter_map(|entry| entry.split_once(" = "));
    entries.map(|(entry, rest)| (number_before(rest), as_in_rust(entry.strip_prefix(front).expect("the front")))).collect()
}

/// The number that stands at the front of a text.
fn number_before(text: &str) -> u32 {
    let digits = text.split(|letter: char| !letter.is_ascii_digit()).next();
    digits.and_then(|digits| digits.parse().ok()).expect("a number follows the name")
}

/// A name of the header as Rust writes it: each word with one capital.
fn as_in_rust(name: &str) -> String {
    name.split('_').map(|word| word[..1].to_string() + &word[1..].to_lowercase()).collect()
}

/// What the header says of the refusal of a number, in the comment beside its name.
fn said_by_header(number: u8) -> Option<&'static str> {
    let names_it = |entry: &str| entry.split_once(" = ").is_some_and(|(_, rest)| number_before(rest) == u32::from(number));
    let line = HEADER.lines().find(|line| line.starts_with("    BUNNYSOLDER_") && names_it(line))?;
    line.split_once("/* ")?.1.strip_suffix(" */")
}

/// The header says of L, K, a VID, a charge and an offset the same ranges as these words.
#[test]
fn ranges_are_those_of_the_header() {
    for refusal in [Refusal::LinkRange, Refusal::DelayRange, Refusal::VidRange, Refusal::ChargeRange, Refusal::OffsetRange] {
        assert_eq!(said_by_header(refusal.number()), Some(refusal.words()));
    }
}

/// What the header defines a name to be, each time that it does.
fn defined(name: &str) -> Vec<&'static str> {
    let front = format!("#define BUNNYSOLDER_{name} ");
    HEADER.lines().filter_map(|line| line.strip_prefix(&front)).collect()
}

/// The edition is that of the header.
#[test]
fn the_edition_is_that_of_the_header() {
    assert_eq!(defined("EDITION"), [EDITION.to_string()]);
}

/// There are as many streams as in the header.
#[test]
fn the_streams_are_those_of_the_header() {
    assert_eq!(defined("STREAMS"), [STREAMS.to_string()]);
}

/// The lengths of frames are those of the header.
#[test]
fn the_lengths_of_frames_are_those_of_the_header() {
    assert_eq!(defined("SHORTEST_FRAME"), [SHORTEST_FRAME.to_string()]);
    assert_eq!(defined("LONGEST_FRAME"), [LONGEST_FRAME.to_string()]);
}

/// Words of documents 01 and 02 for each refusal of a call, by its number.
const WORDS: [(u8, &str); 22] = [
    (1, "port is closed"),
    (2, "open already"),
    (3, "L is outside 2,104 to 23,524"),
    (4, "K is outside"),
    (5, "stream is above 63"),
    (6, "reserved already"),
    (7, "P is below 84"),
    (8, "sum of P"),
    (9, "VID is outside"),
    (10, "stream is bound already"),
    (11, "pair of address and VID"),
    (12, "not reserved"),
    (13, "charge is outside 84 to 2,020"),
    (14, "discarded"),
    (15, "256 best-effort frames"),
    (16, "above K × (L − R)"),
    (17, "frame is outside 60 to 1,996 octets"),
    (18, "under 1,280 places"),
    (19, "record is unfit"),
    (20, "queue holds 256"),
    (25, "withdrawn"),
    (26, "no multiple of 4, or above 60"),
];

/// Each refusal is told by its number and its words.
#[test]
fn refusals_are_told_in_words() {
    for (number, words) in WORDS {
        let told = Refusal::from_number(number).expect("it is a refusal").to_string();
        assert!(told.starts_with(&format!("{number}: ")) && told.contains(words), "{told}");
    }
}
