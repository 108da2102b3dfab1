//! The command line: what is read of words, and what is told of wrong ones.

use std::time::Duration;

use crate::conformance::asked::{read, Asked, Doing};

/// What is read of words.
fn read_of(words: &[&str]) -> Result<Asked, String> {
    read(&words.iter().copied().map(String::from).collect::<Vec<_>>())
}

/// What is asked for by a program alone.
fn plain(program: &[&str]) -> Asked {
    let doing = Doing::Run(program.iter().copied().map(String::from).collect());
    Asked { only: vec![], all: false, first: false, limit: Duration::from_secs(10), into: None, doing }
}

#[test]
fn a_program_takes_all_words_that_follow() {
    assert_eq!(read_of(&["./a"]), Ok(plain(&["./a"])));
    assert_eq!(read_of(&["./a", "--all", "--", "x"]), Ok(plain(&["./a", "--all", "--", "x"])));
}

#[test]
fn options_stand_before_the_program() {
    let words = ["--only", "fits", "--only", "c1", "--all", "--first", "--limit", "0.5", "--into", "there", "a"];
    let only = vec!["fits".into(), "c1".into()];
    let asked = Asked { only, all: true, first: true, limit: Duration::from_millis(500), into: Some("there".into()), ..plain(&["a"]) };
    assert_eq!(read_of(&words), Ok(asked));
}

#[test]
fn nothing_need_be_run() {
    for (word, doing) in [("--list", Doing::List), ("--write", Doing::Write), ("--sums", Doing::Sums)] {
        assert_eq!(read_of(&[word]), Ok(Asked { doing, ..plain(&[]) }));
        assert_eq!(read_of(&[word, "a"]), Err("'a' is one word too many: nothing is run".into()));
    }
}

#[test]
fn wrong_words_are_told() {
    assert_eq!(read_of(&[]), Err("no program is named".into()));
    assert_eq!(read_of(&["--only", "fits"]), Err("no program is named".into()));
    assert_eq!(read_of(&["--ony", "fits", "a"]), Err("'--ony' is no option".into()));
    assert_eq!(read_of(&["--only"]), Err("no name follows '--only'".into()));
    assert_eq!(read_of(&["--into"]), Err("no folder follows '--into'".into()));
    for word in ["x", "-1", "0", "NaN", "1e30"] {
        assert_eq!(read_of(&["--limit", word, "a"]), Err(format!("'{word}' is no number of seconds above 0")));
    }
}
