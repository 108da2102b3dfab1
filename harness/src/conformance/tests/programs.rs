//! The command over programs of every sort, which are words of the shell: those that agree, those that part, and those that do not run as they
//! should.

use std::env;
use std::fs;
use std::path::PathBuf;
use std::process;
use std::time::{Duration, Instant};

use crate::capture::stored;
use crate::conformance::tool::{run, Failure};

/// The first line of what the command tells.
const NAMED: &str = "the conformance set of edition 5\n";
/// Seconds that no program of these tests needs.
const AMPLE: &str = "60";

/// A folder for what a run writes, removed when the test is over.
struct Folder(PathBuf);

impl Folder {
    /// A folder of a test's own.
    fn new(test: &str) -> Folder {
        Folder(env::temp_dir().join(format!("conformance-{}-{test}", process::id())))
    }

    /// What the command leaves with these words after the folder's: status, and what it told on standard output and standard error.
    fn left(&self, words: &[&str]) -> (u8, String, String) {
        let folder = self.0.to_str().expect("the folder's name is text");
        let words: Vec<String> = ["--into", folder].iter().chain(words).copied().map(String::from).collect();
        let (mut output, mut errors) = (Vec::new(), Vec::new());
        let status = run(&words, &mut output, &mut errors);
        (status, String::from_utf8(output).expect("text"), String::from_utf8(errors).expect("text"))
    }

    /// The status, and what the command tells on standard output, of the sample by a program of the shell that may take so many seconds.
    fn of_sample(&self, words: &str, limit: &str) -> (u8, String) {
        let (status, output, errors) = self.left(&["--only", "sample", "--limit", limit, "sh", "-c", words]);
        assert_eq!(errors, "", "{words}");
        (status, output)
    }
}

impl Drop for Folder {
    fn drop(&mut self) {
        // It is not there where nothing was written.
        let _ = fs::remove_dir_all(&self.0);
    }
}

/// Words of the shell that print the stored output of a stored capture.
fn prints(name: &str) -> String {
    format!("cat '{}'", stored::folder().join(format!("{name}.output")).display())
}

/// Holds what is told of the sample by a program of the shell against lines that must be there.
#[track_caller]
fn parts(test: &str, words: &str, lines: &[&str]) {
    parts_within(test, words, AMPLE, lines);
}

/// The same of a program that may take so many seconds.
#[track_caller]
fn parts_within(test: &str, words: &str, limit: &str, lines: &[&str]) {
    let (status, output) = Folder::new(test).of_sample(words, limit);
    assert_eq!(status, 1, "{output}");
    for line in ["stored: 0 agree with the rule, 1 parts from it", "capture sample of group stored parts from the rule"].iter().chain(lines)
    {
        assert!(output.lines().any(|told| told == *line), "{line}: not told in\n{output}");
    }
    assert!(output.ends_with("\nof 1 capture 0 agree with the rule, 1 parts from it\n0 passed, 1 failed\n"), "{output}");
}

#[test]
fn a_program_that_agrees() {
    let (status, output) = Folder::new("agrees").of_sample(&prints("sample"), AMPLE);
    let told = format!("{NAMED}stored: 1 agree with the rule\nof 1 capture 1 agree with the rule\n1 passed, 0 failed\n");
    assert_eq!((status, output.as_str()), (0, told.as_str()));
}

#[test]
fn a_program_that_agrees_with_another_status() {
    let (status, output) = Folder::new("status").of_sample(&format!("{}; exit 3", prints("sample")), AMPLE);
    let note = "note: of 1 capture, first of sample, the program prints what the rule does and ends with a status other than 0";
    assert!(status == 0 && output.contains(note) && output.ends_with("\n1 passed, 0 failed\n"), "{output}");
}

#[test]
fn a_program_that_parts() {
    let lines = ["  at port 0, event 4: arrive on stream 5, charge 100, tag 8", "  the program:  0 4 3 0 1 0     joins current, 0 left"];
    parts("parts", &format!("{} | sed 's/^0 4 .*/0 4 3 0 1 0/'", prints("sample")), &lines);
}

#[test]
fn the_files_of_a_capture_that_parts() {
    let folder = Folder::new("files");
    let (_, output) = folder.of_sample("echo 0 1 1 0 601 0", AMPLE);
    let (stored, path) = (stored::one("sample").expect("it is stored"), |ending: &str| folder.0.join(format!("sample.{ending}")));
    let read = |ending: &str| fs::read(path(ending)).unwrap_or_else(|why| panic!("{ending}: {why}"));
    assert_eq!((read("capture"), read("text")), (stored.octets, stored.text.into_bytes()));
    assert_eq!((read("output"), read("printed")), (stored.output.into_bytes(), b"0 1 1 0 601 0\n".to_vec()));
    assert!(read("svg").starts_with(b"<svg") || read("svg").starts_with(b"<?xml"));
    for (what, ending) in [("the capture", "capture"), ("what the rule prints", "output"), ("a picture of the events", "svg")] {
        assert!(output.contains(&format!("\n  {what}: {}\n", path(ending).display())), "{output}");
    }
    let by_hand =
        format!("\n  by hand: sh -c 'echo 0 1 1 0 601 0' < {} | diff {} -\n", path("capture").display(), path("output").display());
    assert!(output.contains(&by_hand), "{output}");
}

#[test]
fn words_for_a_shell_are_told() {
    let (_, output) = Folder::new("words").of_sample("echo 'a b'", AMPLE);
    assert!(output.contains(r"by hand: sh -c 'echo '\''a b'\''' < "), "{output}");
}

#[test]
fn a_picture_that_would_have_too_much_is_told() {
    let folder = Folder::new("picture");
    folder.left(&["--only", "rings-001", "--write"]);
    let output = folder.0.join("rings-001.output");
    let (_, told, _) = folder.left(&["--only", "rings-001", "head", "-n", "300", output.to_str().expect("the path is text")]);
    assert!(told.contains("\n  a picture of the events: none, since at event "), "{told}");
}

#[test]
fn a_folder_that_cannot_be_written_is_told() {
    let words = ["--into", "/dev/null/there", "--only", "sample", "true"].map(String::from);
    let mut output = Vec::new();
    assert_eq!(run(&words, &mut output, &mut Vec::new()), 1);
    let told = "the capture: /dev/null/there/sample.capture cannot be written: Not a directory";
    assert!(String::from_utf8_lossy(&output).contains(told), "{}", String::from_utf8_lossy(&output));
}

#[test]
fn a_program_that_is_ended_by_a_signal() {
    let lines = ["  the program prints what the rule does", "  the program ended with signal: 11 (SIGSEGV)"];
    parts("signal", &format!("{}; kill -SEGV $$", prints("sample")), &lines);
}

#[test]
fn a_program_that_fails_on_its_way() {
    let lines = [
        "  the program:  no line         its output ends after line 3",
        "  the program ended with exit status: 101",
        "  the program told on standard error: it failed",
    ];
    parts("fails", &format!("{} | head -n 3; echo it failed >&2; exit 101", prints("sample")), &lines);
}

#[test]
fn a_program_that_hangs() {
    let lines = [
        "  the program:  no line         its output ends after line 3",
        "  the program did not end and close its outputs within 300ms, and was ended",
    ];
    parts_within("hangs", &format!("{} | head -n 3; sleep 600", prints("sample")), "0.3", &lines);
}

#[test]
fn a_program_that_takes_longer_than_it_may() {
    let (slow, folder) = (format!("sleep 1; {}", prints("sample")), Folder::new("slow"));
    let (status, told) = folder.of_sample(&slow, "0.3");
    assert!(status == 1 && told.contains("\n  the program did not end and close its outputs within 300ms, and was ended\n"), "{told}");
    assert_eq!(folder.of_sample(&slow, AMPLE).0, 0);
}

#[test]
fn a_program_that_prints_nothing() {
    parts("nothing", "cat > /dev/null", &["  the program:  nothing         prints nothing"]);
}

#[test]
fn a_program_that_prints_too_little_and_too_much() {
    parts("fewer", &format!("{} | head -n 7", prints("sample")), &["  the program:  no line       its output ends after line 7"]);
    parts("more", &format!("{}; echo more", prints("sample")), &["  the program:  more      prints a line more than is due"]);
}

#[test]
fn a_program_whose_lines_end_otherwise() {
    let no_line_feed = "  the program:  the same line   no line feed follows it, and every line ends in one";
    parts("no-line-feed", &format!("printf %s \"$({})\"", prints("sample")), &[no_line_feed]);
    let carriage_return = "  the program:  the same line   ends in a carriage return and a line feed, and a line ends in a line feed alone";
    parts("carriage-return", &format!("{} | sed 's/$/\\r/'", prints("sample")), &[carriage_return]);
}

#[test]
fn a_program_that_prints_without_end() {
    let began = Instant::now();
    let lines = ["  the program was ended when it had printed 65641 octets; 105 are due"];
    parts("flood", &format!("{}; exec yes", prints("sample")), &lines);
    assert!(began.elapsed() < Duration::from_secs(30), "it was not ended");
}

#[test]
fn a_program_that_does_not_read_its_input() {
    // A pipe takes 65,536 octets that nobody reads, and this capture has 16 more.
    let of_long_file = |words: &str| Folder::new("unread").left(&["--only", "refused_21_too_long", "sh", "-c", words]);
    let (status, output, _) = of_long_file("exec <&-; echo refused 21 1");
    assert!(status == 1 && output.contains("\n  the program did not read its input to the end\n"), "{output}");
    let (status, _, _) = of_long_file("exec <&-; echo refused 21 0");
    assert_eq!(status, 0);
}

#[test]
fn a_program_that_cannot_be_started() {
    let told = |program: &str| {
        let (status, output, errors) = Folder::new("not-started").left(&["--only", "sample", program]);
        assert_eq!((status, output.as_str()), (2, NAMED), "{errors}");
        errors
    };
    assert_eq!(told("./nowhere"), "the program './nowhere' cannot be started: No such file or directory (os error 2)\n");
    let in_folder =
        "the program 'nowhere' cannot be started: No such file or directory (os error 2); a program in this folder is ./nowhere\n";
    assert_eq!(told("nowhere"), in_folder);
    let no_leave =
        "the program '/dev/null' cannot be started: Permission denied (os error 13); it must be a program, with leave to run it\n";
    assert_eq!(told("/dev/null"), no_leave);
}

#[test]
fn the_first_that_parts_is_told_or_each() {
    let folder = Folder::new("all");
    let words = ["--only", "c1", "--only", "c2", "--only", "c3", "sh", "-c", &prints("c2")];
    let (status, output, _) = folder.left(&words);
    let told = |output: &str| output.lines().filter(|line| line.starts_with("capture ")).map(String::from).collect::<Vec<_>>();
    let first = "capture c1 of group stored parts from the rule";
    assert_eq!((status, told(&output)), (1, vec![first.into()]));
    assert!(output.ends_with("\nof 3 captures 1 agree with the rule, 2 part from it\n1 passed, 2 failed\n"), "{output}");
    let (_, output, _) = folder.left(&[&["--all"][..], &words].concat());
    assert_eq!(told(&output), [first, "capture c3 of group stored parts from the rule"]);
    let (_, output, _) = folder.left(&[&["--first"][..], &words].concat());
    assert!(output.ends_with("\nof 3 captures 0 agree with the rule, 1 parts from it, 2 were not run\n0 passed, 1 failed\n"), "{output}");
}

#[test]
fn a_program_that_always_hangs_is_given_up() {
    let (status, output, _) = Folder::new("given-up").left(&["--only", "fits", "--limit", "0.01", "sleep", "600"]);
    assert_eq!(status, 1);
    let closing = "the program took too long for 3 captures, and was not run again\n\
                   of 160 captures 0 agree with the rule, 3 part from it, 157 were not run\n0 passed, 3 failed\n";
    assert!(output.ends_with(closing), "{output}");
}

#[test]
fn an_error_of_the_set_is_told_as_such() {
    let Failure { status, what } = Failure::of_the_set("fits-001: wrong");
    assert_eq!(status, 3);
    let told = "an error of the conformance set, by which no program can be judged: fits-001: wrong\n\
                conformance/README.md says how the set is changed";
    assert_eq!(what, told);
}

#[test]
fn names_that_are_none_are_told() {
    let (status, output, errors) = Folder::new("names").left(&["--only", "c1", "--only", "c13", "true"]);
    assert_eq!((status, output.as_str(), errors.as_str()), (2, "", "'c13' is no capture and no group; --list lists them\n"));
}

#[test]
fn wrong_words_are_told_with_the_usage() {
    let (status, output, errors) = Folder::new("usage").left(&["--oly"]);
    assert!(status == 2 && output.is_empty() && errors.starts_with("'--oly' is no option\nusage: conformance/run "), "{errors}");
}

#[test]
fn captures_are_listed() {
    let (status, output, _) = Folder::new("list").left(&["--only", "c1", "--only", "fits", "--list"]);
    let lines: Vec<&str> = output.lines().collect();
    assert_eq!((status, lines.len(), lines[0]), (0, 5, NAMED.trim_end()));
    assert_eq!(lines[1..3], ["stored, 1 capture: the captures of captures/, whose README says what each shows", "  c1"]);
    assert!(lines[3].starts_with("fits, 160 captures: exact fits") && lines[4].starts_with("  fits-001 fits-002 "), "{output}");
}

#[test]
fn captures_are_written() {
    let folder = Folder::new("write");
    let (status, output, _) = folder.left(&["--only", "c1", "--only", "without_events", "--write"]);
    let told = format!("{}: 21 captures, and what the rule prints of each, in {}\n", NAMED.trim_end(), folder.0.display());
    assert_eq!((status, output), (0, told));
    let stored = stored::one("c1").expect("it is stored");
    let read = |name: &str| fs::read(folder.0.join(name)).expect(name);
    assert_eq!((read("c1.capture"), read("c1.output")), (stored.octets, stored.output.into_bytes()));
    assert_eq!((read("without_events-001.output").len(), read("without_events-001.capture").len() % 16), (0, 0));
}
