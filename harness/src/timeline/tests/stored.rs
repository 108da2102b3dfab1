//! The stored pictures of docs/pictures are what the tool draws of the stored captures, under the titles of their list.

use std::collections::BTreeSet;
use std::fs;
use std::path::{Path, PathBuf};

use super::tool::used;
use crate::capture::stored;

/// The ending of a picture's file.
const PICTURE: &str = ".svg";

/// The folder of the stored pictures.
fn folder() -> PathBuf {
    Path::new(env!("CARGO_MANIFEST_DIR")).join("../docs/pictures")
}

/// Each picture of the list with its capture and its title.
fn listed() -> Vec<[String; 3]> {
    let list = fs::read_to_string(folder().join("list")).expect("the list of the pictures can be read");
    let words = |line: &str| line.splitn(3, ' ').map(String::from).collect::<Vec<String>>();
    list.lines().map(|line| words(line).try_into().expect("a line has a picture, a capture and a title")).collect()
}

#[test]
fn stored_pictures_are_what_the_tool_draws() {
    for [picture, capture, title] in listed() {
        let file = fs::read_to_string(folder().join(picture.clone() + PICTURE)).expect("the picture can be read");
        let octets = stored::one(&capture).expect("the capture can be read").octets;
        let drawn = used(&["--title", &title], &octets);
        assert!(drawn == (0, file, String::new()), "{picture}: draw it anew with docs/pictures/draw, and look at it");
    }
}

#[test]
fn every_stored_picture_is_listed_once() {
    let files = fs::read_dir(folder()).expect("the folder can be read").map(|entry| entry.expect("the folder can be read").file_name());
    let files = files.map(|file| file.into_string().expect("a file's name is text"));
    let pictures: BTreeSet<String> = files.filter_map(|file| file.strip_suffix(PICTURE).map(String::from)).collect();
    let mut listed: Vec<String> = listed().into_iter().map(|[picture, ..]| picture).collect();
    listed.sort();
    assert!(!listed.is_empty());
    assert_eq!(listed, pictures.into_iter().collect::<Vec<String>>());
}
