//! What a replay costs: the proved program `replay` beside the outside program's, on the same captures in one run. Wall time of a capture without
//! events and of one of 65,536 octets on four ports, 16,380 events; then the instructions of captures of several lengths, of some stored ones, and of
//! one of ticks alone. Most of what the outside program takes is Rust's way to print a line, so it stands there a second time with the digits put by
//! hand. Nothing here is a test: it prints figures and judges none. `--replay PROGRAM` names the proved program where it is another than the
//! repository's; the instructions want valgrind.

use std::env;
use std::fs::{self, File};
use std::io::{self, Read, Write};
use std::path::{Path, PathBuf};
use std::process::{Command, ExitCode, Stdio};
use std::time::Instant;

use harness::call::Call;
use harness::capture::file::{self, MOST_RECORDS};
use harness::capture::stored;
use harness::command_line::{self, asked};
use harness::comparing::random::Random;
use harness::comparing::replayed::{judged, printed_of_file};
use harness::comparing::valgrind;
use harness::model::capture::{self, PORTS};
use harness::model::port::{self, Port, CHARGES, LEAST_CHARGE};
use harness::model::{replay, rule};

/// How the program is called.
const USAGE: &str = "usage: replay_benchmark [--replay PROGRAM]";
/// How often each program runs for its wall time.
const ROUNDS: usize = 101;
/// The word with which this program is the outside program's `replay`, so that it is built as the benchmark is.
const AS_OUTSIDE: &str = "outside";
/// The word with which this program is that with the digits put by hand.
const BY_DIGITS: &str = "digits";
/// How many programs there are: the proved one and two to hold beside it.
const PROGRAMS: usize = 3;
/// The records of the captures that show how the cost grows, on four ports: up to 16,380 events.
const GROWING: [usize; 5] = [0, 250, 1_000, 4_000, MOST_RECORDS];
/// The stored captures that are measured.
const STORED: [&str; 3] = ["sample", "four_ports", "full_file"];

/// L and K: 125 microseconds of a link of 1 Gbit/s, and four of these epochs.
const OPEN: Call = Call::Open { link: 15_625, delay: 4 };
/// The reserved streams, and the P of each: together most of the share.
const STREAMS: usize = 32;
const PERMITTED: u32 = 400;
/// The P of each stream where all are reserved.
const PERMITTED_OF_ALL: u32 = 200;
/// The events of an epoch before its tick.
const ARRIVALS: usize = 28;
const BEST_EFFORTS: usize = 5;
const TRANSMITS: usize = 30;

/// A capture that is measured: what it holds, how many events it has, and its octets.
struct Measured {
    what: &'static str,
    events: usize,
    octets: Vec<u8>,
}

/// Where the programs are: this one is all but the proved one.
struct Programs {
    proved: PathBuf,
    this: PathBuf,
}

fn main() -> ExitCode {
    let words = command_line::words();
    let result = match &words[..] {
        [word] if word == AS_OUTSIDE => replay::program(),
        [word] if word == BY_DIGITS => by_digits(),
        _ => match asked(&words, &[], USAGE) {
            Ok(asked) => report(asked.replay),
            Err(status) => return status,
        },
    };
    match result {
        Ok(()) => ExitCode::SUCCESS,
        Err(why) => {
            eprintln!("{why}");
            ExitCode::FAILURE
        }
    }
}

/// Prints all figures.
fn report(proved: PathBuf) -> io::Result<()> {
    let programs = Programs { proved, this: env::current_exe()? };
    let path = env::temp_dir().join(format!("replay_benchmark_{}.capture", std::process::id()));
    let result = wall_times(&programs, &path).and_then(|()| instructions(&programs, &path));
    fs::remove_file(&path)?;
    result
}

impl Programs {
    /// Each program by its name, the proved one first.
    fn each(&self) -> [(&'static str, Command); PROGRAMS] {
        let this = |word: &'static str| {
            let mut program = Command::new(&self.this);
            program.arg(word);
            (word, program)
        };
        [("replay", Command::new(&self.proved)), this(AS_OUTSIDE), this(BY_DIGITS)]
    }
}

/// Prints the wall time of the programs on a capture without events, which is what they take to start, and on the largest.
fn wall_times(programs: &Programs, path: &Path) -> io::Result<()> {
    println!("wall time in milliseconds, {ROUNDS} rounds");
    println!("  {:>7}  {:<8}{:>9}{:>9}{:>9}{:>18}", "events", "", "least", "median", "greatest", "replay / median");
    [0, MOST_RECORDS].into_iter().try_for_each(|records| wall_time(programs, path, &mixed(records)))
}

/// Prints the wall time of the programs on these events on four ports: in each round all programs run, one after the other.
fn wall_time(programs: &Programs, path: &Path, events: &[Call]) -> io::Result<()> {
    write_capture(programs, path, &capture(events))?;
    let milliseconds = milliseconds(programs, path)?;
    let [proved, ..] = &milliseconds;
    for ((name, _), figures) in programs.each().iter().zip(&milliseconds) {
        let (least, median, greatest) = (figures[0], figures[ROUNDS / 2], figures[ROUNDS - 1]);
        let (count, ratio) = (PORTS * events.len(), proved[ROUNDS / 2] / median);
        println!("  {count:>7}  {name:<8}{least:>9.2}{median:>9.2}{greatest:>9.2}{ratio:>18.2}");
    }
    Ok(())
}

/// The milliseconds of each program in each round, the least first.
fn milliseconds(programs: &Programs, path: &Path) -> io::Result<[Vec<f64>; PROGRAMS]> {
    let mut milliseconds: [Vec<f64>; PROGRAMS] = Default::default();
    (0..ROUNDS).try_for_each(|_| round(programs, path, &mut milliseconds))?;
    milliseconds.iter_mut().for_each(|figures| figures.sort_by(f64::total_cmp));
    Ok(milliseconds)
}

/// Runs all programs once, one after the other, and adds the milliseconds of each.
fn round(programs: &Programs, path: &Path, milliseconds: &mut [Vec<f64>; PROGRAMS]) -> io::Result<()> {
    for ((_, program), figures) in programs.each().iter_mut().zip(milliseconds) {
        figures.push(timed(program, path)?);
    }
    Ok(())
}

/// The milliseconds of one run of a program, its start included.
fn timed(program: &mut Command, path: &Path) -> io::Result<f64> {
    let input = File::open(path)?;
    let began = Instant::now();
    program.stdin(input).stdout(Stdio::null()).status()?;
    Ok(began.elapsed().as_secs_f64() * 1_000.0)
}

/// Writes a capture, and stops unless all programs print the same of it: else they would not do the same work.
fn write_capture(programs: &Programs, path: &Path, octets: &[u8]) -> io::Result<()> {
    let text = replay::replay(octets);
    fs::write(path, octets)?;
    for (name, mut program) in programs.each() {
        let output = printed_of_file(&mut program, path).map_err(|why| io::Error::other(format!("{name}: {why}")))?;
        judged(&output, &text).map_err(|why| io::Error::other(format!("{name} parts from the outside program: {why}")))?;
    }
    Ok(())
}

/// Prints the instructions of the programs for each capture, and those of an event: what the capture takes above one without events.
fn instructions(programs: &Programs, path: &Path) -> io::Result<()> {
    let none = counted(programs, path, &capture(&mixed(0)))?;
    println!(
        "instructions, by valgrind --tool=callgrind; those of an event are what a capture takes above one without events, for each event"
    );
    println!("  {:<18}{:>7}  {:<8}{:>12}{:>17}{:>13}", "", "events", "", "in all", "replay / in all", "of an event");
    for measured in measured()? {
        let counts = counted(programs, path, &measured.octets)?;
        instruction_lines(programs, &measured, &counts, &none);
    }
    Ok(())
}

/// Prints a line for each program: its instructions for a capture, and what these are above those for none.
fn instruction_lines(programs: &Programs, Measured { what, events, .. }: &Measured, counts: &[u64; PROGRAMS], none: &[u64; PROGRAMS]) {
    for (program, (name, _)) in programs.each().iter().enumerate() {
        let of_event = counts[program].saturating_sub(none[program]) as f64 / *events.max(&1) as f64;
        let ratio = counts[0] as f64 / counts[program] as f64;
        println!("  {what:<18}{events:>7}  {name:<8}{:>12}{ratio:>17.2}{of_event:>13.1}", counts[program]);
    }
}

/// The instructions of the programs on a capture.
fn counted(programs: &Programs, path: &Path, octets: &[u8]) -> io::Result<[u64; PROGRAMS]> {
    write_capture(programs, path, octets)?;
    let mut counts = [0; PROGRAMS];
    for (count, (_, program)) in counts.iter_mut().zip(programs.each()) {
        *count = valgrind::instructions(&program, path, &[])?;
    }
    Ok(counts)
}

/// The outside program's `replay` of a good capture with the digits of each line put by hand.
fn by_digits() -> io::Result<()> {
    let mut octets = Vec::new();
    io::stdin().lock().read_to_end(&mut octets)?;
    let ports = capture::events(&octets).map_err(|refused| io::Error::other(format!("{refused:?}")))?;
    let mut lines = Vec::new();
    (0..).zip(&ports).for_each(|(number, events)| put_lines(&mut lines, number, events));
    io::stdout().lock().write_all(&lines)
}

/// Adds the lines of the port of a number.
fn put_lines(lines: &mut Vec<u8>, number: u32, events: &[Call]) {
    let mut port = Port::closed();
    for (event_number, event) in (1..).zip(events) {
        let reply = rule::step(&event.given(), &mut port);
        let numbers = [number, event_number, capture::kind(event).into(), reply.refusal.into(), reply.first, reply.second];
        numbers.into_iter().for_each(|number| put_number(lines, number));
        *lines.last_mut().expect("a line has numbers") = b'\n';
    }
}

/// Adds the digits of a number, at most ten, and a space.
fn put_number(lines: &mut Vec<u8>, number: u32) {
    let mut digits = [b' '; 11];
    let (mut at, mut rest) = (digits.len() - 1, number);
    loop {
        at -= 1;
        digits[at] = b'0' + (rest % 10) as u8;
        rest /= 10;
        if rest == 0 {
            return lines.extend_from_slice(&digits[at..]);
        }
    }
}

/// The captures whose instructions are counted.
fn measured() -> io::Result<Vec<Measured>> {
    let of = |what: &'static str, events: &[Call]| Measured { what, events: PORTS * events.len(), octets: capture(events) };
    let mut measured: Vec<Measured> = GROWING.iter().map(|&records| of("mixed events", &mixed(records))).collect();
    for name in STORED {
        let stored = stored::one(name).map_err(io::Error::other)?;
        measured.push(Measured { what: name, events: stored.output.lines().count(), octets: stored.octets });
    }
    measured.push(of("ticks, 64 streams", &ticks()));
    Ok(measured)
}

/// A capture of one chain of events on four ports.
fn capture(events: &[Call]) -> Vec<u8> {
    file::chain([true; PORTS], events)
}

/// So many events: a port is opened, its streams are reserved, then come epochs, until there are enough.
fn mixed(count: usize) -> Vec<Call> {
    let mut random = Random::of(1, "replay_benchmark", 0);
    let mut events = opened(STREAMS, PERMITTED);
    while events.len() < count {
        epoch(&mut random, &mut events);
    }
    events.truncate(count);
    events
}

/// As many events as a port can have: it is opened, all its streams are reserved, and the rest are ticks.
fn ticks() -> Vec<Call> {
    let mut events = opened(port::STREAMS, PERMITTED_OF_ALL);
    events.resize(MOST_RECORDS, Call::Tick);
    events
}

/// A port is opened, and so many of its streams are reserved, each with this P.
fn opened(streams: usize, permitted: u32) -> Vec<Call> {
    let reserves = (0..streams).map(|stream| Call::Reserve { stream: stream as u8, permitted });
    [OPEN].into_iter().chain(reserves).collect()
}

/// The events of one epoch in any order, then its tick.
fn epoch(random: &mut Random, events: &mut Vec<Call>) {
    for place in random.shuffled(ARRIVALS + BEST_EFFORTS + TRANSMITS) {
        let tag = events.len() as u32;
        events.push(match place {
            place if place < ARRIVALS => {
                Call::Arrive { stream: random.below(STREAMS) as u8, charge: random.between(LEAST_CHARGE..=PERMITTED), tag }
            }
            place if place < ARRIVALS + BEST_EFFORTS => Call::BestEffort { charge: random.between(CHARGES), tag },
            _ => Call::Transmit,
        });
    }
    events.push(Call::Tick);
}
