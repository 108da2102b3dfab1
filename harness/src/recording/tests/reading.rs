//! Recordings as they are read: the four sorts, the times, the lengths, and what is said of a bad one.

use std::io::{self, Read};

use super::made::{captured, streamed, tagged, untagged, Form, ADDRESS, NANOSECONDS, ORDINARY, PLAN};
use crate::recording::pcap::{BadRecording, Packet, Recording};

/// The packets of a recording.
fn packets(recording: &[u8]) -> Result<Vec<Packet>, BadRecording> {
    Recording::open(recording)?.collect()
}

/// The packets of a recording that must be good.
fn read(recording: &[u8]) -> Vec<Packet> {
    packets(recording).unwrap_or_else(|bad| panic!("{bad}"))
}

/// What is said of a bad recording.
fn said_of(recording: &[u8]) -> String {
    packets(recording).expect_err("a bad recording").to_string()
}

/// The header of an ordinary recording, then these octets.
fn after_header(octets: &[u8]) -> Vec<u8> {
    [&ORDINARY.header()[..], octets].concat()
}

#[test]
fn a_recording_written_out_is_read() {
    let header = [0xd4, 0xc3, 0xb2, 0xa1, 2, 0, 4, 0, 0, 0, 0, 0, 0, 0, 0, 0, 0xff, 0xff, 0, 0, 1, 0, 0, 0];
    let first = [[1, 0, 0, 0], [2, 0, 0, 0], [17, 0, 0, 0], [0x40, 1, 0, 0]].concat();
    let octets = [1, 2, 3, 4, 5, 6, 7, 8, 9, 10, 11, 12, 13, 14, 15, 16, 17];
    let second = [[2, 0, 0, 0], [0; 4], [14, 0, 0, 0], [14, 0, 0, 0]].concat();
    let recording = [&header[..], &first, &octets, &second, &octets[..14]].concat();
    let front = [1, 2, 3, 4, 5, 6, 7, 8, 9, 10, 11, 12, 13, 14, 15, 16];
    let shorter = [1, 2, 3, 4, 5, 6, 7, 8, 9, 10, 11, 12, 13, 14, 0, 0];
    let packets = [
        Packet { number: 1, time: 1_000_002_000, length: 320, front },
        Packet { number: 2, time: 2_000_000_000, length: 14, front: shorter },
    ];
    assert_eq!(read(&recording), packets);
}

#[test]
fn the_four_sorts_give_the_same_capture() {
    let packets =
        [(1_999_998_000, streamed(96)), (1_999_999_000, untagged(400)), (2_000_000_000, streamed(60)), (2_000_159_000, untagged(60))];
    let capture = |form: Form| captured(PLAN, &form.recording(&packets));
    let sorts = [(false, false), (false, true), (true, false), (true, true)];
    let [first, others @ ..] = sorts.map(|(low_first, nanoseconds)| capture(Form { low_first, nanoseconds, ..ORDINARY }));
    assert_eq!(first.1.packets, 4);
    for other in others {
        assert_eq!(other, first);
    }
}

#[test]
fn times_go_across_the_second() {
    let times = [0, 1, 999_999_999, 1_000_000_000, 4_294_967_295_999_999_999];
    let read_as =
        |form: Form| read(&form.recording(&times.map(|time| (time, untagged(60))))).iter().map(|packet| packet.time).collect::<Vec<_>>();
    assert_eq!(read_as(NANOSECONDS), times);
    assert_eq!(read_as(ORDINARY), [0, 0, 999_999_000, 1_000_000_000, 4_294_967_295_999_999_000]);
}

#[test]
fn a_recording_may_have_no_packet() {
    assert_eq!(read(&ORDINARY.header()), []);
}

#[test]
fn a_packet_that_was_cut_has_its_length() {
    for snap_length in [16, 17, 59, 1_600, 2_000] {
        let form = Form { snap_length, ..ORDINARY };
        let whole = tagged(ADDRESS, 0xe00a, 1_997);
        let packets = read(&form.recording(&[(0, whole.clone()), (5_000, streamed(60))]));
        assert_eq!((packets[0].length, &packets[0].front[..]), (1_997, &whole[..16]));
        assert_eq!((packets[1].number, packets[1].time, packets[1].length), (2, 5_000, 60));
    }
}

#[test]
fn a_check_sequence_is_no_part_of_the_length() {
    let lengths = |link_type: u32| {
        let form = Form { link_type, ..ORDINARY };
        read(&form.recording(&[(0, untagged(64)), (0, untagged(19))])).iter().map(|packet| packet.length).collect::<Vec<_>>()
    };
    assert_eq!(lengths(1), [64, 19]);
    assert_eq!(lengths(0x2400_0001), [60, 15]);
    assert_eq!(lengths(0x2bff_0001), [64, 19]);
    assert_eq!(lengths(0x0400_0001), [64, 19]);
    let form = Form { link_type: 0x2400_0001, ..ORDINARY };
    assert_eq!(read(&form.recording(&[(0, untagged(18))]))[0].front[14..], [0, 0]);
    let short = form.recording(&[(0, vec![0; 3])]);
    assert_eq!(said_of(&short), "packet 1, at octet 24: its 3 octets are fewer than the 4 of the check sequence");
}

#[test]
fn a_bad_header_is_told() {
    let header = ORDINARY.header();
    let with = |form: Form| form.header();
    let said = [
        (vec![], "the file has 0 octets, fewer than the 24 of a header"),
        (b"\xd4\xc3\xb2".to_vec(), "the file has 3 octets, fewer than the 24 of a header"),
        (header[..4].to_vec(), "the file ends after 4 of its 24 octets"),
        (header[..23].to_vec(), "the file ends after 23 of its 24 octets"),
        (b"\xa1\xb2\xc3\xd5 and no more than text".to_vec(), "it does not begin as a pcap file does"),
        (b"\x0a\x0d\x0d\x0a\0\0\0\x1c".to_vec(), "it is a pcapng file, and the older pcap format is read"),
        (b"\xa1\xb2\xcd\x34".to_vec(), "it is a pcap file of a modified sort, with longer packet headers"),
        (b"\x34\xcd\xb2\xa1".to_vec(), "it is a pcap file of a modified sort, with longer packet headers"),
        (b"\x1f\x8b\x08".to_vec(), "it is compressed by gzip"),
        (b"snoop\0\0\0".to_vec(), "it is a snoop file"),
        (b"EPCH".to_vec(), "it is a capture already"),
        (with(Form { version: [1, 4], ..ORDINARY }), "its version is 1.4, and 2.4 or an earlier 2 is read"),
        (with(Form { version: [3, 0], ..NANOSECONDS }), "its version is 3.0, and 2.4 or an earlier 2 is read"),
        (with(Form { link_type: 113, ..ORDINARY }), "its link type is 113, and Ethernet's is 1"),
        (with(Form { link_type: 0, ..NANOSECONDS }), "its link type is 0, and Ethernet's is 1"),
        (with(Form { link_type: 0x3400_0001, ..ORDINARY }), "its packets have a check sequence of 6 octets, and Ethernet's has 4"),
    ];
    for (recording, what) in said {
        assert_eq!(said_of(&recording), format!("the recording's header, at octet 0: {what}"));
    }
    assert_eq!(read(&with(Form { version: [2, 3], ..ORDINARY })), []);
}

#[test]
fn a_bad_packet_is_told_with_its_number_and_octet() {
    let packet = |numbers: [u32; 4], kept: usize| after_header(&ORDINARY.packet(numbers, &vec![7; kept]));
    let said = [
        (after_header(&[0]), "the file ends after 1 of the 16 octets of its header"),
        (after_header(&[0; 15]), "the file ends after 15 of the 16 octets of its header"),
        (packet([0, 0, 60, 60], 59), "the file ends after 59 of the 60 octets that are kept"),
        (packet([0, 0, 60, 60], 16), "the file ends after 16 of the 60 octets that are kept"),
        (packet([0, 0, 60, 60], 3), "the file ends after 3 of the 60 octets that are kept"),
        (packet([0, 0, 60, 60], 0), "the file ends after 0 of the 60 octets that are kept"),
        (packet([0, 0, 61, 60], 61), "61 octets are kept of its 60"),
        (packet([0, 1_000_000, 60, 60], 60), "its time has 1000000 parts of a second, which has 1000000"),
        (packet([0, 0, 15, 60], 15), "15 octets are kept, and its first 16 are needed"),
        (packet([0, 0, 13, 14], 13), "13 octets are kept, and its first 14 are needed"),
        (packet([0, 0, 262_145, 262_145], 262_145), "262145 octets are kept, and a packet of this recording has at most 262144"),
        (packet([0, 0, u32::MAX, u32::MAX], 60), "4294967295 octets are kept, and a packet of this recording has at most 262144"),
    ];
    for (recording, what) in said {
        assert_eq!(said_of(&recording), format!("packet 1, at octet 24: {what}"));
        let later = [&ORDINARY.recording(&[(0, untagged(60)), (0, untagged(100))])[..], &recording[24..]].concat();
        assert_eq!(said_of(&later), format!("packet 3, at octet 216: {what}"));
    }
    let nanoseconds = [NANOSECONDS.header(), NANOSECONDS.packet([9, 1_000_000_000, 60, 60], &[0; 60])].concat();
    assert_eq!(said_of(&nanoseconds), "packet 1, at octet 24: its time has 1000000000 parts of a second, which has 1000000000");
}

#[test]
fn a_snap_length_may_be_greater_than_is_used() {
    let long = vec![7; 262_145];
    assert_eq!(read(&Form { snap_length: 262_145, ..ORDINARY }.recording(&[(0, long.clone())]))[0].length, 262_145);
    assert_eq!(read(&after_header(&ORDINARY.packet([0, 0, 262_144, 262_144], &long[1..])))[0].length, 262_144);
}

/// An input that fails after some octets.
struct Failing<'a>(&'a [u8]);

impl Read for Failing<'_> {
    fn read(&mut self, octets: &mut [u8]) -> io::Result<usize> {
        match self.0.is_empty() {
            true => Err(io::Error::other("the disk is gone")),
            false => self.0.read(octets),
        }
    }
}

#[test]
fn an_input_that_fails_is_told() {
    let said = |octets: &[u8]| {
        let packets: Result<Vec<Packet>, BadRecording> = Recording::open(Failing(octets)).and_then(|recording| recording.collect());
        packets.expect_err("reading fails").to_string()
    };
    let recording = ORDINARY.recording(&[(0, untagged(60))]);
    assert_eq!(said(&recording[..20]), "the recording's header, at octet 0: reading fails: the disk is gone");
    assert_eq!(said(&recording[..24]), "packet 1, at octet 24: reading fails: the disk is gone");
    assert_eq!(said(&recording[..45]), "packet 1, at octet 24: reading fails: the disk is gone");
    assert_eq!(said(&recording[..90]), "packet 1, at octet 24: reading fails: the disk is gone");
    assert_eq!(said(&recording), "packet 2, at octet 100: reading fails: the disk is gone");
}
