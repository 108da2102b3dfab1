//! A program run to its end within bounds: octets are written to its standard input, what it prints is kept up to a number of octets, and one that
//! takes too long or prints too much is ended, with all that it started.

use std::io::{self, Read, Write};
use std::mem;
use std::os::unix::process::CommandExt;
use std::process::{Child, ChildStdin, Command, ExitStatus, Stdio};
use std::sync::atomic::{AtomicBool, Ordering};
use std::sync::{Arc, Mutex, MutexGuard};
use std::thread;
use std::time::{Duration, Instant};

/// How long the writer waits between two pieces, so that the program meets a stream that has no octet ready.
const BETWEEN_PIECES: Duration = Duration::from_micros(300);
/// How long a program is left alone between two looks whether it has ended.
const BETWEEN_LOOKS: Duration = Duration::from_micros(200);
/// How many octets are read at a time.
const READ_OCTETS: usize = 65_536;
/// The signal that ends a process whatever it does.
const SIGKILL: i32 = 9;

extern "C" {
    /// Sends a signal to a process, or, for a number below zero, to the group of processes of that number.
    fn kill(process: i32, signal: i32) -> i32;
}

/// What a program may take: its time, and how many octets it may print to standard output and how many are kept of standard error.
#[derive(Clone, Copy)]
pub struct Bounds {
    pub time: Duration,
    pub stdout: usize,
    pub stderr: usize,
}

/// How a program ended.
#[derive(Clone, Copy, Debug, PartialEq, Eq)]
pub enum End {
    /// By itself, with a status.
    Status(ExitStatus),
    /// It was ended, since it took too long, or something that it started kept its pipes open so long.
    TookTooLong,
    /// It was ended, since it printed more than it may.
    PrintedTooMuch,
}

/// What a program left.
#[derive(Debug)]
pub struct Left {
    pub end: End,
    pub stdout: Vec<u8>,
    pub stderr: Vec<u8>,
    /// Whether it ended or closed its standard input before all was written.
    pub input_unread: bool,
}

/// What is kept of a pipe.
#[derive(Default)]
struct Kept {
    octets: Vec<u8>,
    /// Whether there were more octets than are kept.
    more: bool,
}

/// What threads share that write to a program and read what it prints.
#[derive(Clone, Default)]
struct Pipes {
    input_unread: Arc<AtomicBool>,
    stdout: Arc<Mutex<Kept>>,
    stderr: Arc<Mutex<Kept>>,
}

/// Starts a program, in a group of processes of its own, and runs it to its end with an input that is written all at once.
pub fn run(program: &mut Command, input: &[u8], bounds: &Bounds) -> io::Result<Left> {
    run_in_pieces(program, &[input], bounds)
}

/// Starts a program, in a group of processes of its own, and runs it to its end with an input that is written in these pieces.
pub fn run_in_pieces(program: &mut Command, pieces: &[&[u8]], bounds: &Bounds) -> io::Result<Left> {
    let program = program.stdin(Stdio::piped()).stdout(Stdio::piped()).stderr(Stdio::piped()).process_group(0);
    ended(program.spawn()?, pieces.iter().map(|octets| octets.to_vec()).collect(), bounds)
}

/// What a started program leaves, while these pieces are written to its standard input where that is a pipe.
pub fn ended(mut child: Child, pieces: Vec<Vec<u8>>, bounds: &Bounds) -> io::Result<Left> {
    let pipes = Pipes::default();
    let (input, output, errors) = (child.stdin.take(), child.stdout.take(), child.stderr.take());
    let (to_input, to_output, to_errors) = (pipes.clone(), pipes.clone(), pipes.clone());
    let (most_output, most_errors) = (bounds.stdout, bounds.stderr);
    let threads = [
        thread::spawn(move || write_pieces(input, &pieces, &to_input.input_unread)),
        thread::spawn(move || keep(output, &to_output.stdout, most_output)),
        thread::spawn(move || keep(errors, &to_errors.stderr, most_errors)),
    ];
    let end = end(&mut child, bounds.time, &pipes, || threads.iter().all(|thread| thread.is_finished()))?;
    // The threads of a program that was ended may still wait for what it started; those of one that ended by itself are at their end.
    for thread in threads.into_iter().filter(|_| matches!(end, End::Status(_))) {
        thread.join().expect("a thread at a pipe does not panic")?;
    }
    let octets = |kept: &Mutex<Kept>| mem::take(&mut locked(kept).octets);
    let input_unread = pipes.input_unread.load(Ordering::Relaxed);
    Ok(Left { end, stdout: octets(&pipes.stdout), stderr: octets(&pipes.stderr), input_unread })
}

/// How a program ends within its time, once its pipes are closed too.
fn end(child: &mut Child, time: Duration, pipes: &Pipes, pipes_closed: impl Fn() -> bool) -> io::Result<End> {
    let began = Instant::now();
    loop {
        let too_much = locked(&pipes.stdout).more;
        if too_much || began.elapsed() >= time {
            end_all(child)?;
            return Ok(if too_much { End::PrintedTooMuch } else { End::TookTooLong });
        }
        if let Some(status) = child.try_wait()?.filter(|_| pipes_closed()) {
            return Ok(End::Status(status));
        }
        thread::sleep(BETWEEN_LOOKS);
    }
}

/// Ends a program and what it started.
fn end_all(child: &mut Child) -> io::Result<()> {
    // The number is that of the program, which is a child that was not waited for or leads its group, or of no group at all.
    unsafe { kill(-(child.id() as i32), SIGKILL) };
    child.kill()?;
    child.wait().map(drop)
}

/// Writes pieces to a pipe, if there is one; a program may close its standard input before the last of them, which is noted.
fn write_pieces(pipe: Option<ChildStdin>, pieces: &[Vec<u8>], unread: &AtomicBool) -> io::Result<()> {
    let Some(mut input) = pipe else { return Ok(()) };
    for (number, octets) in pieces.iter().enumerate() {
        if number > 0 {
            thread::sleep(BETWEEN_PIECES);
        }
        match input.write_all(octets) {
            Err(why) if why.kind() == io::ErrorKind::BrokenPipe => {
                unread.store(true, Ordering::Relaxed);
                break;
            }
            written => written?,
        }
    }
    Ok(())
}

/// Reads a pipe, if there is one, to its end, and keeps at most so many octets.
fn keep(pipe: Option<impl Read>, kept: &Mutex<Kept>, most: usize) -> io::Result<()> {
    let Some(mut pipe) = pipe else { return Ok(()) };
    let mut octets = vec![0; READ_OCTETS];
    loop {
        match pipe.read(&mut octets) {
            Ok(0) => return Ok(()),
            Ok(count) => locked(kept).add(&octets[..count], most),
            Err(why) if why.kind() == io::ErrorKind::Interrupted => (),
            Err(why) => return Err(why),
        }
    }
}

impl Kept {
    /// Adds as many octets as may be kept.
    fn add(&mut self, octets: &[u8], most: usize) {
        let room = most - self.octets.len();
        self.octets.extend(&octets[..octets.len().min(room)]);
        self.more |= octets.len() > room;
    }
}

/// What stands behind a lock.
fn locked<T>(lock: &Mutex<T>) -> MutexGuard<'_, T> {
    lock.lock().expect("no thread panics at a lock")
}

#[cfg(test)]
mod tests {
    use std::fs;
    use std::path::Path;

    use super::*;

    /// Bounds that no program of these tests reaches.
    const WIDE: Bounds = Bounds { time: Duration::from_secs(60), stdout: usize::MAX, stderr: usize::MAX };
    /// A time that is soon over.
    const SHORT: Bounds = Bounds { time: Duration::from_millis(50), ..WIDE };

    /// What the shell leaves of words that it runs, with an input.
    fn shell(words: &str, input: &[u8], bounds: &Bounds) -> Left {
        run(Command::new("sh").args(["-c", words]), input, bounds).expect("the shell runs")
    }

    #[test]
    fn a_program_gets_all_octets_of_its_input() {
        let input: Vec<u8> = (0..200_000_u32).map(|place| place as u8).collect();
        for piece in [input.len(), 70_000, 1_000] {
            let left = run_in_pieces(&mut Command::new("cat"), &input.chunks(piece).collect::<Vec<_>>(), &WIDE).expect("cat runs");
            assert!(left.stdout == input && !left.input_unread, "in pieces of {piece}");
        }
    }

    #[test]
    fn what_is_printed_and_the_status_are_left() {
        let left = shell("echo printed; echo told >&2; exit 3", b"", &WIDE);
        let End::Status(status) = left.end else { panic!("{:?}", left.end) };
        assert_eq!((status.code(), &left.stdout[..], &left.stderr[..]), (Some(3), &b"printed\n"[..], &b"told\n"[..]));
    }

    #[test]
    fn a_program_need_not_read_its_input() {
        let left = shell("true", &[0; 1_000_000], &WIDE);
        assert!(matches!(left.end, End::Status(status) if status.success()) && left.input_unread);
    }

    #[test]
    fn a_program_that_is_not_there_is_not_started() {
        let why = run(&mut Command::new("./no such program"), b"", &WIDE).expect_err("it is not there");
        assert_eq!(why.kind(), io::ErrorKind::NotFound);
    }

    #[test]
    fn a_program_that_does_not_end_is_ended() {
        let left = shell("echo first; exec sleep 600", b"", &SHORT);
        assert_eq!((left.end, &left.stdout[..]), (End::TookTooLong, &b"first\n"[..]));
    }

    #[test]
    fn what_a_program_started_is_not_waited_for() {
        for words in ["sleep 600; true", "exec 3<&0; sleep 600 <&3 &"] {
            let began = Instant::now();
            assert_eq!(shell(words, &[0; 1_000_000], &SHORT).end, End::TookTooLong, "{words}");
            assert!(began.elapsed() < Duration::from_secs(5), "{words}: waited for what it started");
        }
    }

    #[test]
    fn what_a_program_started_is_ended_with_it() {
        let left = shell("sleep 600 & echo $!; wait", b"", &SHORT);
        let started: u32 = String::from_utf8(left.stdout).expect("a number").trim().parse().expect("a number");
        let runs =
            || fs::read_to_string(Path::new("/proc").join(started.to_string()).join("stat")).is_ok_and(|stat| !stat.contains(") Z "));
        let began = Instant::now();
        while runs() {
            assert!(began.elapsed() < Duration::from_secs(5), "process {started} still runs");
            thread::sleep(BETWEEN_LOOKS);
        }
    }

    #[test]
    fn a_program_that_prints_too_much_is_ended() {
        let began = Instant::now();
        let left = shell("exec yes", b"", &Bounds { stdout: 100_001, ..WIDE });
        assert_eq!((left.end, left.stdout.len()), (End::PrintedTooMuch, 100_001));
        assert!(began.elapsed() < WIDE.time / 2, "it was ended at the end of its time");
    }

    #[test]
    fn just_as_much_as_a_program_may_print_is_not_too_much() {
        let left = shell("printf 12345", b"", &Bounds { stdout: 5, ..WIDE });
        assert!(matches!(left.end, End::Status(_)) && left.stdout == b"12345");
    }

    #[test]
    fn a_program_may_tell_more_than_is_kept() {
        let left = shell("yes | head -c 1000000 >&2 && echo end", b"", &Bounds { stderr: 10, ..WIDE });
        assert_eq!((left.stdout, left.stderr), (b"end\n".to_vec(), b"y\ny\ny\ny\ny\n".to_vec()));
    }
}
