//! From the text form to a capture; of a bad text, the line and what is wrong there.

use crate::call::Call;
use crate::capture::file::{self, Record, LAST_INDEX};
use crate::capture::lines::{self, BadText};
use crate::capture::words::{number, Words, CHAIN, FIRST, HEADER, NEXT, OCTETS, PORT};
use crate::model::capture::{PORTS, RECORD_OCTETS};

/// The greatest port number.
const LAST_PORT: u32 = PORTS as u32 - 1;

/// Where in the text the next line stands.
#[derive(Clone, Copy, PartialEq, Eq)]
enum Within {
    /// Before the first run: a header may still come, and no record can.
    Nothing,
    /// After the line of a run, before its front.
    RunLine,
    /// After a record of a run; whether its next index is that of the record that follows in the run.
    Run { linked: bool },
    /// After octets that are no whole record, which are the last.
    End,
}

/// The capture as far as the lines went.
struct Capture {
    /// The header in digits, if there is one.
    header: Option<Vec<u8>>,
    first: [Option<u16>; PORTS],
    records: Vec<Record>,
    beyond: Vec<u8>,
    within: Within,
}

/// The capture of a text.
pub fn octets(text: &[u8]) -> Result<Vec<u8>, BadText> {
    let mut capture = Capture { header: None, first: [None; PORTS], records: Vec::new(), beyond: Vec::new(), within: Within::Nothing };
    let last = lines::each(text, |words| capture.line(words))?;
    capture.ended().map_err(|what| BadText { line: last, what })
}

impl Capture {
    /// Takes one line; whether there was anything in it.
    fn line(&mut self, words: &mut Words) -> Result<bool, String> {
        let Some(word) = words.word() else { return Ok(false) };
        if self.within == Within::End {
            return Err(String::from("only the last octets can be fewer than a record's 16"));
        }
        match word {
            HEADER => self.header(words)?,
            FIRST => self.first(words)?,
            PORT => self.ports(words)?,
            CHAIN => self.run()?,
            OCTETS => self.octets(words)?,
            _ => self.event(word, words)?,
        }
        words.end()?;
        Ok(true)
    }

    /// A header in digits: it gives the first indices, and comes before all else.
    fn header(&mut self, words: &mut Words) -> Result<(), String> {
        if self.header.is_some() || self.within != Within::Nothing || self.first != [None; PORTS] {
            return Err(String::from("a header comes first"));
        }
        let octets = words.octets(RECORD_OCTETS)?;
        if octets.len() < RECORD_OCTETS {
            self.within = Within::End;
        }
        self.header = Some(octets);
        Ok(())
    }

    /// A port's first index outright.
    fn first(&mut self, words: &mut Words) -> Result<(), String> {
        let port = words.number("a port", LAST_PORT)?;
        let index = words.number("a first index", LAST_INDEX)?;
        self.put_first(port, index)
    }

    /// Ports that start at the front of the run that begins.
    fn ports(&mut self, words: &mut Words) -> Result<(), String> {
        let front = self.records.len() as u32 + 1;
        let mut port = words.number("a port", LAST_PORT)?;
        loop {
            self.put_first(port, front)?;
            match words.word() {
                Some(word) => port = number(word, "a port", LAST_PORT)?,
                None => return self.run(),
            }
        }
    }

    /// Gives a port its first index, once.
    fn put_first(&mut self, port: u32, index: u32) -> Result<(), String> {
        if self.header.is_some() {
            return Err(String::from("the header gives the first indices"));
        }
        let index = u16::try_from(index).map_err(|_| format!("record {index} is past the last that a port can start at, {LAST_INDEX}"))?;
        match self.first[port as usize].replace(index) {
            None => Ok(()),
            Some(_) => Err(format!("port {port} has a first index already")),
        }
    }

    /// Begins a run.
    fn run(&mut self) -> Result<(), String> {
        self.not_empty()?;
        self.within = Within::RunLine;
        Ok(())
    }

    /// A run that was begun has a record.
    fn not_empty(&self) -> Result<(), String> {
        match self.within {
            Within::RunLine => Err(String::from("no record follows the line of a port or a chain")),
            _ => Ok(()),
        }
    }

    /// A record in digits, with its next index among them, or octets that are no whole record.
    fn octets(&mut self, words: &mut Words) -> Result<(), String> {
        let octets = words.octets(RECORD_OCTETS)?;
        match Record::try_from(&octets[..]) {
            Ok(record) => self.record(record, false),
            Err(_) if octets.is_empty() => Err(String::from("hexadecimal digits are missing")),
            Err(_) => {
                self.not_empty()?;
                self.beyond = octets;
                self.within = Within::End;
                Ok(())
            }
        }
    }

    /// The record of an event, with a next index of its own or that of the record that follows in the run.
    fn event(&mut self, word: &str, words: &mut Words) -> Result<(), String> {
        let event = event(word, words)?;
        match words.word() {
            None => self.record(file::record(&event, 0), true),
            Some(NEXT) => self.record(file::record(&event, words.number("a next index", LAST_INDEX)? as u16), false),
            Some(word) => Err(format!("'{word}' is one word too many")),
        }
    }

    /// Adds a record to the run, and makes it the next one of the record before where that one is linked.
    fn record(&mut self, record: Record, linked: bool) -> Result<(), String> {
        let index = self.records.len() + 1;
        match (self.within, self.records.last_mut()) {
            (Within::Nothing, _) => return Err(String::from("a record comes after the line of a port or a chain")),
            (Within::Run { linked: true }, Some(before)) => {
                let index =
                    u16::try_from(index).map_err(|_| format!("record {index} is past the last that a record can name, {LAST_INDEX}"))?;
                file::put_next_index(before, index);
            }
            _ => {}
        }
        self.records.push(record);
        self.within = Within::Run { linked };
        Ok(())
    }

    /// The octets of the capture, once no line follows.
    fn ended(self) -> Result<Vec<u8>, String> {
        self.not_empty()?;
        let first = self.first.map(Option::unwrap_or_default);
        let mut octets = self.header.unwrap_or_else(|| file::header(first).to_vec());
        octets.extend(self.records.iter().flatten());
        octets.extend(self.beyond);
        Ok(octets)
    }
}

/// The event that a line names by its first word.
pub fn event(word: &str, words: &mut Words) -> Result<Call, String> {
    let stream = |words: &mut Words| words.number("a stream", u8::MAX);
    let charge = |words: &mut Words| words.number("a charge", u32::MAX);
    let tag = |words: &mut Words| words.number("a tag", u32::MAX);
    Ok(match word {
        "open" => Call::Open { link: words.number("an L", u32::MAX)?, delay: words.number("a K", u32::MAX)? },
        "reserve" => Call::Reserve { stream: stream(words)?, permitted: words.number("a P", u32::MAX)? },
        "arrive" => Call::Arrive { stream: stream(words)?, charge: charge(words)?, tag: tag(words)? },
        "best" => match words.word() {
            Some("effort") => Call::BestEffort { charge: charge(words)?, tag: tag(words)? },
            _ => return Err(String::from("'effort' is missing after 'best'")),
        },
        "tick" => Call::Tick,
        "transmit" => Call::Transmit,
        "withdraw" => Call::Withdraw { stream: stream(words)? },
        other => return Err(format!("'{other}' begins no line")),
    })
}
