//! What the programs share in reading their command lines.

use std::env;
use std::path::PathBuf;
use std::process::ExitCode;

use crate::comparing::replayed;

/// The word before the path of the proved program `replay`.
pub const REPLAY: &str = "--replay";
/// The exit status after a wrong word.
pub const WRONG_WORDS: u8 = 2;

/// What a command line asks for.
#[derive(Debug, PartialEq, Eq)]
pub struct Asked {
    /// The proved program `replay`: the one that is named, or the repository's.
    pub replay: PathBuf,
    /// Those of the program's own words that stand there.
    pub own: Vec<String>,
}

/// The words of this program's command line.
pub fn words() -> Vec<String> {
    env::args().skip(1).collect()
}

/// Reads a command line of words of the program's own and `--replay PROGRAM`. Where a word is wrong it prints what is wrong and the usage, and returns
/// the exit status.
pub fn asked(words: &[String], own: &[&str], usage: &str) -> Result<Asked, ExitCode> {
    read(words, own).map_err(|wrong| {
        eprintln!("{wrong}\n{usage}");
        ExitCode::from(WRONG_WORDS)
    })
}

/// Reads such a command line, or says what is wrong with it.
fn read(words: &[String], own: &[&str]) -> Result<Asked, String> {
    let mut asked = Asked { replay: replayed::proved(), own: Vec::new() };
    let mut words = words.iter();
    while let Some(word) = words.next() {
        match word.as_str() {
            REPLAY => asked.replay = words.next().ok_or_else(|| format!("no program follows '{REPLAY}'"))?.into(),
            word if own.contains(&word) => asked.own.push(String::from(word)),
            word => return Err(format!("'{word}' is no word of this program")),
        }
    }
    Ok(asked)
}

#[cfg(test)]
mod tests {
    use super::*;

    /// What is read of words, of which `--all` is the program's own.
    fn read_of(words: &[&str]) -> Result<Asked, String> {
        let words: Vec<String> = words.iter().copied().map(String::from).collect();
        read(&words, &["--all"])
    }

    #[test]
    fn words_are_read() {
        assert_eq!(read_of(&[]), Ok(Asked { replay: replayed::proved(), own: vec![] }));
        assert_eq!(read_of(&["--replay", "a", "--all"]), Ok(Asked { replay: "a".into(), own: vec!["--all".into()] }));
    }

    #[test]
    fn wrong_words_are_told() {
        assert_eq!(read_of(&["--rplay", "a"]), Err("'--rplay' is no word of this program".into()));
        assert_eq!(read_of(&["--all", "--replay"]), Err("no program follows '--replay'".into()));
        assert_eq!(read_of(&["--replay", "a", "b"]), Err("'b' is no word of this program".into()));
    }
}
