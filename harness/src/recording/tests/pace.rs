//! Transmits as often as the link could send: how long a frame keeps it busy, and when it is idle.

use super::made::{captured, streamed, text_of, untagged, EPOCH, NANOSECONDS};
use crate::capture::reading;

/// The text form of the capture of packets that all come at once, under a port without streams.
fn at_once(epoch: u32, link: u32, lengths: &[usize]) -> String {
    let packets: Vec<(u64, Vec<u8>)> = lengths.iter().map(|&length| (0, untagged(length))).collect();
    let plan = format!("epoch {epoch}\nopen {link} 16");
    let text = reading::text(&captured(&plan, &NANOSECONDS.recording(&packets)).0);
    text.lines().filter(|line| !line.starts_with("best")).skip(2).map(|line| format!("{line}\n")).collect()
}

/// So many transmits in each epoch, with the ticks between them.
fn transmits(in_epochs: &[usize]) -> String {
    let epochs: Vec<String> = in_epochs.iter().map(|&count| "transmit\n".repeat(count)).collect();
    epochs.join("tick\n")
}

#[test]
fn short_frames_back_to_back() {
    // 2,500 octets are 29 frames of 84 and 64 octets, which is 30 beginnings; after 5 epochs, 12,500 octets, 149 frames have begun.
    assert_eq!(at_once(200_000, 2_500, &[60; 155]), transmits(&[30, 30, 30, 30, 29, 6]));
    // 2,520 octets are just 30 frames: the next begins with the next epoch.
    assert_eq!(at_once(200_000, 2_520, &[60; 65]), transmits(&[30, 30, 5]));
}

#[test]
fn long_frames_back_to_back() {
    // Beginnings at 0 and 2,020 of the first 2,500 octets, at 4,040 of the second, at 6,060 of the third, at 8,080 of the fourth, at 10,100 and
    // 12,120 of the fifth.
    assert_eq!(at_once(200_000, 2_500, &[1_996; 7]), transmits(&[2, 1, 1, 1, 2]));
    // Beginnings at 0 and 1,543 of the first, at 3,086 and 4,629 of the second, at 6,172 of the third, at 7,715 and 9,258 of the fourth.
    assert_eq!(at_once(200_000, 2_500, &[1_519; 7]), transmits(&[2, 2, 1, 2]));
}

#[test]
fn short_and_long_frames_back_to_back() {
    // 84 and 2,020 are 2,104, the least L: each epoch has one of either.
    assert_eq!(at_once(200_000, 2_104, &[60, 1_996, 60, 1_996, 60, 1_996]), transmits(&[2, 2, 2]));
    assert_eq!(at_once(200_000, 2_105, &[60, 1_996, 60, 1_996, 60, 1_996]), transmits(&[3, 2, 1]));
}

#[test]
fn the_pace_is_exact_for_any_epoch() {
    // A frame of 84 takes a part of a nanosecond; in 12 epochs, 25,248 octets, 301 begin.
    let exact = at_once(210_400, 2_104, &[60; 300]);
    for epoch in [1, 2, 7, 10, 999, 1_000_003, u32::MAX] {
        assert_eq!(at_once(epoch, 2_104, &[60; 300]), exact, "epoch {epoch}");
    }
}

#[test]
fn the_link_is_free_when_its_frame_has_been_sent() {
    // 84 octets take 6,720 nanoseconds.
    let packets = |third: u64| [(0, untagged(60)), (100, untagged(60)), (third, streamed(60))];
    let before = "best effort 84 1\ntransmit\nbest effort 84 2\narrive 5 84 3\ntransmit\ntransmit\n";
    let after = "best effort 84 1\ntransmit\nbest effort 84 2\ntransmit\narrive 5 84 3\ntransmit\n";
    assert_eq!(text_of(&packets(6_719)), before);
    assert_eq!(text_of(&packets(6_720)), after);
    assert_eq!(text_of(&packets(6_721)), after);
}

#[test]
fn a_link_that_is_free_at_the_epochs_end_sends_after_the_tick() {
    // 2,020 and 480 octets are just an epoch's, and 2,020 take 161,600 nanoseconds.
    let packets = [(0, untagged(1_996)), (0, untagged(456)), (161_600, untagged(60))];
    assert_eq!(text_of(&packets), "best effort 2020 1\ntransmit\nbest effort 480 2\ntransmit\nbest effort 84 3\ntick\ntransmit\n");
    let packets = [(0, untagged(1_996)), (0, untagged(455)), (161_600, untagged(60))];
    assert_eq!(text_of(&packets), "best effort 2020 1\ntransmit\nbest effort 479 2\ntransmit\nbest effort 84 3\ntransmit\n");
}

#[test]
fn an_idle_link_sends_a_packet_before_the_next_of_the_same_time() {
    assert_eq!(text_of(&[(0, untagged(60)), (0, streamed(60))]), "best effort 84 1\ntransmit\narrive 5 84 2\ntransmit\n");
}

#[test]
fn an_idle_link_tries_after_every_packet() {
    let discarded = [(0, streamed(177)), (1, streamed(60)), (2, untagged(60))];
    assert_eq!(text_of(&discarded), "arrive 5 201 1\ntransmit\narrive 5 84 2\ntransmit\nbest effort 84 3\ntransmit\n");
}

#[test]
fn an_idle_link_sends_after_the_tick_what_that_made_current() {
    let text = "arrive 5 120 1\ntransmit\narrive 5 100 2\ntransmit\ntick\ntransmit\ntransmit\nbest effort 84 3\ntransmit\n";
    assert_eq!(text_of(&[(0, streamed(96)), (1_000, streamed(76)), (300_000, untagged(60))]), text);
}

#[test]
fn a_busy_link_goes_on_after_the_tick() {
    // The frame of 199,999 keeps the link busy until 206,719.
    let begin = "best effort 84 1\ntransmit\ntransmit\nbest effort 84 2\ntransmit\ntick\n";
    let packets = |third: u64| [(0, untagged(60)), (EPOCH - 1, untagged(60)), (third, untagged(60))];
    assert_eq!(text_of(&packets(206_718)), format!("{begin}best effort 84 3\ntransmit\n"));
    assert_eq!(text_of(&packets(206_719)), format!("{begin}transmit\nbest effort 84 3\ntransmit\n"));
}
