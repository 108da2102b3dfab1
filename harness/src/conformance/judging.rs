//! What a program left of a capture, judged: it agrees with the rule where it prints just what the rule does and no signal ended it.

use crate::conformance::difference::{self, Difference};
use crate::running::{End, Left};

/// Whether a program agrees with the rule about a capture.
#[derive(Clone, Debug, PartialEq, Eq)]
pub enum Verdict {
    /// It does; its exit status is 0.
    Agrees,
    /// It does; its exit status is another, of which document 01 says nothing.
    AgreesWithStatus(i32),
    /// It does not: where its output first differs, if it does.
    Parts(Option<Difference>),
}

/// The verdict on what a program left, beside what the rule prints.
pub fn judged(left: &Left, output: &str) -> Verdict {
    let difference = difference::first(&left.stdout, output);
    match left.end {
        End::Status(status) if difference.is_none() => match status.code() {
            Some(0) => Verdict::Agrees,
            Some(other) => Verdict::AgreesWithStatus(other),
            None => Verdict::Parts(difference),
        },
        _ => Verdict::Parts(difference),
    }
}

#[cfg(test)]
mod tests {
    use std::os::unix::process::ExitStatusExt;
    use std::process::ExitStatus;

    use super::*;
    use crate::conformance::difference::How;

    /// The verdict on a program that prints a line and ends so, where that line is due.
    fn verdict(printed: &str, end: End) -> Verdict {
        judged(&Left { end, stdout: printed.into(), stderr: b"words".to_vec(), input_unread: true }, "0 1 5 1 0 0\n")
    }

    /// An end with a status, as the system gives it.
    fn status(raw: i32) -> End {
        End::Status(ExitStatus::from_raw(raw))
    }

    #[test]
    fn the_output_decides() {
        assert_eq!(verdict("0 1 5 1 0 0\n", status(0)), Verdict::Agrees);
        assert_eq!(verdict("0 1 5 1 0 0\n", status(3 << 8)), Verdict::AgreesWithStatus(3));
        assert_eq!(verdict("", status(0)), Verdict::Parts(Some(Difference { line: 0, how: How::Missing })));
    }

    #[test]
    fn a_program_must_end_by_itself() {
        for end in [status(11), End::TookTooLong, End::PrintedTooMuch] {
            assert_eq!(verdict("0 1 5 1 0 0\n", end), Verdict::Parts(None), "{end:?}");
        }
    }
}
