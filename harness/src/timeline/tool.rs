//! The tool that draws the events of a capture, or says them in words, from standard input to standard output. Status 0 says that it did; 1 that the
//! capture is bad or too much for a picture, or that input or output failed, and then nothing is written; 2 that the command line is wrong.

use std::io::{Read, Write};

use crate::call::{Call, Reply};
use crate::capture::words::number;
use crate::command_line::WRONG_WORDS;
use crate::model::capture::{self, MOST_OCTETS, PORTS};
use crate::timeline::page::{picture, Part};
use crate::timeline::{draining, replied, words, TooMany, MOST};

/// How the tool is called.
const USAGE: &str = "usage: timeline [--port PORT] [--from EVENT] [--to EVENT] [--title TEXT] [--words] < CAPTURE > PICTURE";
/// The status after a picture was drawn.
const DRAWN: u8 = 0;
/// The status where nothing is written.
const FAILED: u8 = 1;

/// What a command line asks for.
#[derive(Clone, Debug, PartialEq, Eq)]
struct Asked {
    /// The one port that is drawn; none for all that have events.
    port: Option<usize>,
    from: usize,
    to: usize,
    title: String,
    /// Whether the events are said in words.
    words: bool,
}

/// Draws the capture in the input as the words ask, or tells what is wrong; the status.
pub fn run(words: &[String], input: &mut dyn Read, output: &mut dyn Write, errors: &mut dyn Write) -> u8 {
    let (status, what) = match asked(words) {
        Err(wrong) => (WRONG_WORDS, format!("{wrong}\n{USAGE}")),
        Ok(asked) => match put(&asked, input, output) {
            Ok(()) => return DRAWN,
            Err(why) => (FAILED, why),
        },
    };
    // Where not even this can be written, the status says it.
    let _ = writeln!(errors, "{what}");
    status
}

/// Reads a command line, or says what is wrong with it.
fn asked(words: &[String]) -> Result<Asked, String> {
    let mut asked = Asked { port: None, from: 1, to: usize::MAX, title: String::new(), words: false };
    let mut words = words.iter();
    while let Some(word) = words.next() {
        let mut next = |what: &str| words.next().ok_or_else(|| format!("{what} is missing after '{word}'"));
        match word.as_str() {
            "--port" => asked.port = Some(number(next("a port")?, "a port", PORTS as u32 - 1)? as usize),
            "--from" => asked.from = event(next("an event's number")?)?,
            "--to" => asked.to = event(next("an event's number")?)?,
            "--title" => asked.title = next("a text")?.clone(),
            "--words" => asked.words = true,
            other => return Err(format!("'{other}' is no word of this program")),
        }
    }
    match asked.from <= asked.to {
        true => Ok(asked),
        false => Err(format!("there is no event from {} to {}", asked.from, asked.to)),
    }
}

/// A word as the number of an event, from 1.
fn event(word: &str) -> Result<usize, String> {
    match number(word, "an event's number", u32::MAX)? {
        0 => Err(String::from("events are numbered from 1")),
        number => Ok(number as usize),
    }
}

/// Reads all of the input, and writes what is asked of it.
fn put(asked: &Asked, input: &mut dyn Read, output: &mut dyn Write) -> Result<(), String> {
    let mut octets = Vec::new();
    // One octet more than the longest capture shows that a file is too long.
    input.take(MOST_OCTETS as u64 + 1).read_to_end(&mut octets).map_err(|why| format!("standard input: {why}"))?;
    let text = made(asked, &octets)?;
    output.write_all(text.as_bytes()).and_then(|()| output.flush()).map_err(|why| format!("standard output: {why}"))
}

/// The picture or the words of a capture.
fn made(asked: &Asked, octets: &[u8]) -> Result<String, String> {
    let ports = capture::events(octets).map_err(|refused| words::refused_capture(&refused))?;
    let ports = ports.iter().map(|events| replied(events)).enumerate();
    let ports: Vec<(usize, Vec<(Call, Reply)>)> =
        ports.filter(|(port, events)| asked.port.map_or(!events.is_empty(), |one| one == *port)).collect();
    let parts: Vec<Part> =
        ports.iter().map(|(port, events)| part(asked, *port, events)).filter(|part| asked.from == 1 || !part.shown.is_empty()).collect();
    if parts.is_empty() && asked.from > 1 {
        return Err(format!("there is no event {}: {}", asked.from, counts(&ports)));
    }
    match asked.words {
        true => Ok(parts.iter().map(said).collect()),
        false => picture(&parts, &asked.title).map_err(|too_many| format!("{too_many}; {}", advice(&too_many))),
    }
}

/// How many events each port has, in words.
fn counts(ports: &[(usize, Vec<(Call, Reply)>)]) -> String {
    let counts: Vec<String> = ports.iter().map(|(port, events)| format!("port {port} has {}", events.len())).collect();
    if counts.is_empty() {
        String::from("no port has events")
    } else {
        counts.join(", ")
    }
}

/// The events of a port that are asked for.
fn part<'a>(asked: &Asked, port: usize, events: &'a [(Call, Reply)]) -> Part<'a> {
    Part { port, events, shown: asked.from..=asked.to.min(events.len()) }
}

/// The events of a port in words, a line for each, below a line for the port; a tick also says which streams still drain and which it frees.
fn said(part: &Part) -> String {
    let notes = draining::notes(part.events);
    let said = |event: usize| {
        let (call, reply) = &part.events[event - 1];
        words::event(event, call, reply) + &notes[event - 1] + "\n"
    };
    format!("port {}\n", part.port) + &part.shown.clone().map(said).collect::<String>()
}

/// What to do about a picture that would have too much.
fn advice(too_many: &TooMany) -> String {
    let some = match too_many {
        TooMany::Events { port, shown } => {
            format!("ask for some of them, as with --port {port} --from {} --to {}", shown.start(), shown.start() + MOST - 1)
        }
        TooMany::Frames { .. } => String::from("ask for other events with --from and --to"),
    };
    format!("{some}, or for the words of all with --words")
}
