//! The tool that makes the capture of a recording under a plan. Status 0 says that all packets and withdrawals are in the capture; 1 that plan or
//! recording is bad, or that reading or writing failed, and then nothing is written; 2 that the command line is wrong; 3 that the capture was written
//! and something is not in it, which the report tells.

use std::fs;
use std::io::{BufReader, Read, Write};

use crate::command_line::WRONG_WORDS;
use crate::recording::pcap::Recording;
use crate::recording::report::Report;
use crate::recording::{plan, turning};

/// How the tool is called.
const USAGE: &str = "usage: recording PLAN < RECORDING > CAPTURE";
/// The status where all packets and withdrawals are in the capture.
const WHOLE: u8 = 0;
/// The status where nothing is written.
const FAILED: u8 = 1;
/// The status where something is not in the capture.
const NOT_WHOLE: u8 = 3;

/// Makes the capture of the recording in the input under the plan that the words name, and tells what became of the packets, or what is wrong; the
/// status.
pub fn run(words: &[String], input: &mut dyn Read, output: &mut dyn Write, errors: &mut dyn Write) -> u8 {
    let (status, what) = match words {
        [path] if !path.starts_with('-') => match made(path, input, output) {
            Ok(report) => (if report.is_whole() { WHOLE } else { NOT_WHOLE }, report.to_string()),
            Err(why) => (FAILED, why),
        },
        _ => (WRONG_WORDS, String::from(USAGE)),
    };
    // Where not even this can be written, the status says it.
    let _ = writeln!(errors, "{what}");
    status
}

/// Reads the plan of a path and all of the recording, and writes the capture.
fn made(path: &str, input: &mut dyn Read, output: &mut dyn Write) -> Result<Report, String> {
    let text = fs::read(path).map_err(|why| format!("{path}: {why}"))?;
    let plan = plan::read(&text).map_err(|bad| format!("{path}: {bad}"))?;
    let recording = Recording::open(BufReader::new(input)).map_err(|bad| bad.to_string())?;
    let (capture, report) = turning::capture(plan, recording).map_err(|bad| bad.to_string())?;
    output.write_all(&capture).and_then(|()| output.flush()).map_err(|why| format!("standard output: {why}"))?;
    Ok(report)
}
