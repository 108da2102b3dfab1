//! Reads a plan: the text that gives the epoch's length, L and K, the reservations, the bindings, and when streams are withdrawn. What Open, Reserve,
//! Bind or Withdraw would refuse is told with its line and number.

use crate::call::{Call, Reply, ADDRESS_OCTETS};
use crate::capture::lines::{self, BadText};
use crate::capture::words::Words;
use crate::capture::writing::event;
use crate::model::port::Port;
use crate::model::{refusal, rule};

/// Begins the line with the epoch's length.
const EPOCH: &str = "epoch";
/// Begins the line with L and K, as in the text form of captures.
const OPEN: &str = "open";
/// Begins the line of a reservation, as in the text form of captures.
const RESERVE: &str = "reserve";
/// Begins the line of a binding.
const BIND: &str = "bind";
/// Begins the line of a withdrawal.
const WITHDRAW: &str = "withdraw";
/// Stands between the octets of an address.
const BETWEEN_OCTETS: char = ':';
/// The base of an octet's digits, and how many it has.
const HEXADECIMAL: u32 = 16;
const DIGITS: usize = 2;

/// A plan without fault.
#[derive(Debug, PartialEq, Eq)]
pub struct Plan {
    /// The epoch's length in nanoseconds.
    pub epoch: u32,
    /// The Open and the Reserves.
    pub calls: Vec<Call>,
    /// The port after them and the bindings.
    pub port: Port,
    /// The withdrawals, by their times.
    pub withdrawals: Vec<Withdrawal>,
}

/// That a stream is withdrawn, so many nanoseconds after the first packet.
#[derive(Clone, Copy, Debug, PartialEq, Eq)]
pub struct Withdrawal {
    pub time: u64,
    pub stream: u8,
}

/// The plan as far as the lines went.
struct Reading {
    epoch: Option<u32>,
    calls: Vec<Call>,
    port: Port,
    withdrawals: Vec<Withdrawal>,
}

/// The plan of a text.
pub fn read(text: &[u8]) -> Result<Plan, BadText> {
    let mut reading = Reading { epoch: None, calls: Vec::new(), port: Port::closed(), withdrawals: Vec::new() };
    let last = lines::each(text, |words| reading.line(words))?;
    reading.ended().map_err(|what| BadText { line: last.max(1), what })
}

impl Reading {
    /// Takes one line; whether there was anything in it.
    fn line(&mut self, words: &mut Words) -> Result<bool, String> {
        let Some(word) = words.word() else { return Ok(false) };
        match word {
            EPOCH => self.epoch(words)?,
            OPEN | RESERVE => self.call(event(word, words)?)?,
            BIND => self.bind(words)?,
            WITHDRAW => self.withdraw(words)?,
            other => return Err(format!("'{other}' begins no line of a plan")),
        }
        words.end()?;
        Ok(true)
    }

    /// The epoch's length, once.
    fn epoch(&mut self, words: &mut Words) -> Result<(), String> {
        let epoch = words.number("an epoch's length", u32::MAX)?;
        if epoch == 0 {
            return Err(String::from("an epoch has at least 1 nanosecond"));
        }
        match self.epoch.replace(epoch) {
            None => Ok(()),
            Some(_) => Err(String::from("the epoch has a length already")),
        }
    }

    /// An Open or a Reserve.
    fn call(&mut self, call: Call) -> Result<(), String> {
        self.granted(&call)?;
        self.calls.push(call);
        Ok(())
    }

    /// A binding.
    fn bind(&mut self, words: &mut Words) -> Result<(), String> {
        let stream = words.number("a stream", u8::MAX)?;
        let address = address(words.word().ok_or("an address is missing")?)?;
        let vid = words.number("a VID", u32::MAX)?;
        self.granted(&Call::Bind { stream, address, vid })
    }

    /// A withdrawal, which comes later than all else: it fails where it would be refused after the calls and withdrawals of the lines before.
    fn withdraw(&mut self, words: &mut Words) -> Result<(), String> {
        let stream = words.number("a stream", u8::MAX)?;
        let time = words.number("a time", u64::MAX)?;
        let mut later = self.port.clone();
        for Withdrawal { stream, .. } in &self.withdrawals {
            rule::step(&Call::Withdraw { stream: *stream }, &mut later);
        }
        granted(rule::step(&Call::Withdraw { stream }, &mut later))?;
        self.withdrawals.push(Withdrawal { time, stream });
        Ok(())
    }

    /// Plays a call, which fails where it is refused.
    fn granted(&mut self, call: &Call) -> Result<(), String> {
        granted(rule::step(&call.given(), &mut self.port))
    }

    /// The plan, once no line follows.
    fn ended(mut self) -> Result<Plan, String> {
        let epoch = self.epoch.ok_or("no line before the end gives the epoch's length")?;
        self.withdrawals.sort_by_key(|withdrawal| withdrawal.time);
        match self.port.is_open() {
            true => Ok(Plan { epoch, calls: self.calls, port: self.port, withdrawals: self.withdrawals }),
            false => Err(String::from("no line before the end opens the port")),
        }
    }
}

/// Fails where a call is refused, with the number and what document 01 says of it.
fn granted(reply: Reply) -> Result<(), String> {
    match reply.refusal {
        0 => Ok(()),
        refusal => Err(refusal::told(refusal)),
    }
}

/// A word as an address, six octets of two hexadecimal digits.
fn address(word: &str) -> Result<[u8; ADDRESS_OCTETS], String> {
    let octet = |digits: &str| match digits.len() == DIGITS && digits.chars().all(|digit| digit.is_digit(HEXADECIMAL)) {
        true => u8::from_str_radix(digits, HEXADECIMAL).ok(),
        false => None,
    };
    let octets: Option<Vec<u8>> = word.split(BETWEEN_OCTETS).map(octet).collect();
    let address = octets.and_then(|octets| octets.try_into().ok());
    address.ok_or_else(|| format!("'{word}' is not an address, which is six octets as in 01:23:45:67:89:ab"))
}
