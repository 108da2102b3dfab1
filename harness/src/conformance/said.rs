//! What a program says at the line where it parts from the rule: the line, and its words beside what is due.

use crate::conformance::difference::{Difference, How};
use crate::conformance::line::{self, Line};
use crate::conformance::playing::{Due, Event};
use crate::model::capture::{kind, Refused};
use crate::timeline::words;

/// How many characters of a program's line are told at most.
const TOLD_CHARACTERS: usize = 60;

/// The program's line as it is told, and its words; `output` is what the rule prints.
pub fn said(difference: &Difference, due: &Due, output: &str) -> (String, String) {
    let same = || String::from("the same line");
    match &difference.how {
        How::Missing if difference.line == 0 => (String::from("nothing"), String::from("prints nothing")),
        How::Missing => (String::from("no line"), format!("its output ends after line {}", difference.line)),
        How::NoLineFeed => (same(), String::from("no line feed follows it, and every line ends in one")),
        How::CarriageReturn => (same(), String::from("ends in a carriage return and a line feed, and a line ends in a line feed alone")),
        How::Surplus { printed } => (quoted(printed), surplus(printed)),
        How::Other { printed, ended } => {
            let cut_off = if *ended { "" } else { "; no line feed follows it: the output is cut off there" };
            (quoted(printed), meant(printed, difference.line, due, output) + cut_off)
        }
    }
}

/// What a line says that is one more than is due.
fn surplus(printed: &[u8]) -> String {
    match line::read(printed) {
        Some(Line::Refused { refusal, index }) => refused(refusal, index),
        _ => String::from("prints a line more than is due"),
    }
}

/// A line as it is told: cut where it is long, and what is no character of a text written out.
fn quoted(line: &[u8]) -> String {
    let text = String::from_utf8_lossy(line);
    let all = written_out(&text.chars().take(TOLD_CHARACTERS + 1).collect::<String>());
    let told: String = all.chars().take(TOLD_CHARACTERS).collect();
    match told.as_str() {
        "" => String::from("an empty line"),
        _ if told == all => told,
        _ => told + "…",
    }
}

/// A text with what is no letter of a line written out.
pub fn written_out(text: &str) -> String {
    let told = |letter: char| if letter.is_control() { letter.escape_debug().to_string() } else { String::from(letter) };
    text.chars().map(told).collect()
}

/// What a line says that stands where another is due.
fn meant(printed: &[u8], number: usize, due: &Due, output: &str) -> String {
    let mut lines = output.lines().skip(number);
    let (due_line, following) = (lines.next().unwrap_or_default(), lines.next());
    let read = line::read(printed);
    if read.is_some() && read == line::read(due_line.as_bytes()) {
        return format!(
            "has the right numbers and is written otherwise than '{due_line}', with one space between and no zeros before them"
        );
    }
    if following.is_some_and(|line| line.as_bytes() == printed) {
        return String::from("leaves this line out and prints the one that is due after it");
    }
    match (read, due) {
        (Some(Line::Refused { refusal, index }), Due::Refused(_)) => refused(refusal, index),
        (Some(Line::Reply { .. }), Due::Refused(_)) => String::from("plays the file"),
        (Some(line), Due::Event(event)) => of_event(&line, event),
        (None, Due::Refused(_)) => String::from("prints no line of that form: 'refused', the number and the index of the record"),
        _ => String::from("prints no reply line: six numbers, port, event, kind, refusal or 0, and two reply numbers"),
    }
}

/// The refusal of a file by these numbers.
fn refused(refusal: u64, index: u64) -> String {
    let numbers = u8::try_from(refusal).ok().zip(usize::try_from(index).ok());
    numbers.map_or(String::from("refuses the file with no refusal's number"), |(refusal, index)| {
        words::refused_capture(&Refused { refusal, index })
    })
}

/// What a reply line says where that of an event is due.
fn of_event(line: &Line, event: &Event) -> String {
    match (line.reply_to(event), *line) {
        (Some((refusal, numbers)), _) => match line::reply(refusal, numbers) {
            Some(reply) => words::reply(event.call, &reply),
            None => format!("replies {refusal} {} {}, which no port replies to this call", numbers[0], numbers[1]),
        },
        (None, Line::Reply { port, event: number, kind: of_kind, .. }) => {
            format!("prints a line of port {port}, event {number}, kind {of_kind}; the kind of this event is {}", kind(event.call))
        }
        (None, Line::Refused { refusal, index }) => refused(refusal, index),
    }
}
