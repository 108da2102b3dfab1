//! What is told of a file that is refused: what is wrong with it, and what stands there.

use crate::conformance::file_words::{at, why};
use crate::model::capture::{
    events, FIRST_INDICES_AT, KIND_AT, MOST_OCTETS, NEXT_INDEX_AT, NUMBER_B_AT, RECORD_OCTETS, STREAM_AT, ZEROS_AT,
};

/// A capture of two records, both on port 1's chain and the second on port 2's: a tick, then a best-effort frame of charge 400 and tag 8.
fn good() -> Vec<u8> {
    let mut octets = vec![0; 3 * RECORD_OCTETS];
    octets[..8].copy_from_slice(b"EPCH\0\0\0\x01");
    octets[8..10].copy_from_slice(&[0, 2]);
    octets[16..20].copy_from_slice(&[5, 0, 0, 2]);
    octets[32..44].copy_from_slice(&[4, 255, 0, 0, 0, 0, 1, 0x90, 0, 0, 0, 8]);
    assert!(events(&octets).is_ok());
    octets
}

/// Holds what is told to be wrong against what is expected, where the good capture is changed.
#[track_caller]
fn is_wrong(change: impl Fn(&mut Vec<u8>), expected: &str) {
    let mut octets = good();
    change(&mut octets);
    let refused = events(&octets).expect_err("a refused file");
    assert_eq!(why(&octets, &refused)[1], format!("  {expected}"));
}

#[test]
fn lengths_are_told() {
    is_wrong(|octets| octets.truncate(15), "15 octets are fewer than 16");
    is_wrong(|octets| octets.truncate(33), "33 octets are no multiple of 16");
    is_wrong(|octets| octets.resize(MOST_OCTETS + 16, 0), "65552 octets are more than 65536");
}

#[test]
fn headers_are_told() {
    is_wrong(|octets| octets[3] = b'h', "the letters are not EPCH");
    is_wrong(|octets| octets[ZEROS_AT + 3] = 1, "the zero octets of the header are not all zero");
}

#[test]
fn indices_are_told() {
    is_wrong(|octets| octets[FIRST_INDICES_AT + 7] = 3, "the first index of port 3, 3, is past the last record, 2");
    is_wrong(|octets| octets[16 + NEXT_INDEX_AT + 1] = 1, "the next index, 1, is neither 0 nor above the record's own, 1");
    is_wrong(|octets| octets[16 + NEXT_INDEX_AT + 1] = 3, "the next index, 3, is past the last record, 2");
}

#[test]
fn records_are_told() {
    is_wrong(|octets| octets[16 + KIND_AT] = 8, "kind 8 is none of 1 to 7");
    is_wrong(|octets| octets[32 + KIND_AT] = 7, "an unused number of kind 7 is not 0");
    is_wrong(|octets| octets[16 + STREAM_AT] = 9, "the stream octet of kind 5 is 9 and not 0");
    is_wrong(|octets| octets[32 + STREAM_AT] = 9, "the stream octet of kind 4 is 9 and not 255");
    is_wrong(|octets| octets[16 + NUMBER_B_AT] = 1, "an unused number of kind 5 is not 0");
    is_wrong(|octets| octets[32 + ZEROS_AT] = 1, "its zero octets are not all zero");
}

#[test]
fn what_stands_at_an_index_is_told() {
    let header = "45 50 43 48 00 00 00 01 00 02 00 00 00 00 00 00: letters EPCH, first indices 0 1 2 0, zero octets 00 00 00 00";
    assert_eq!(at(&good(), 0), ["the file has 48 octets, records 0 to 2", header]);
    let first = "05 00 00 02 00 00 00 00 00 00 00 00 00 00 00 00: kind 5, stream octet 0, next index 2, A 0, B 0, zero octets 00 00 00 00";
    assert_eq!(at(&good(), 1), ["record 1 of 0 to 2, on the chain of port 1", first]);
    let second =
        "04 ff 00 00 00 00 01 90 00 00 00 08 00 00 00 00: kind 4, stream octet 255, next index 0, A 400, B 8, zero octets 00 00 00 00";
    assert_eq!(at(&good(), 2), ["record 2 of 0 to 2, on the chains of ports 1 2", second]);
    assert_eq!(at(&good(), 3), ["the file has 48 octets and no record 3"]);
    assert_eq!(at(&[1, 2], 0), ["the file has 2 octets and no record 0"]);
}

#[test]
fn a_record_on_no_chain_is_told() {
    let mut octets = good();
    octets[FIRST_INDICES_AT..ZEROS_AT].fill(0);
    assert_eq!(at(&octets, 1)[0], "record 1 of 0 to 2, on no chain");
    octets[FIRST_INDICES_AT + 1] = 1;
    octets[16 + NEXT_INDEX_AT + 1] = 1;
    assert_eq!(at(&octets, 2)[0], "record 2 of 0 to 2, on no chain");
}
