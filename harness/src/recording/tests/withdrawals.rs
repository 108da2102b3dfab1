//! Streams that are withdrawn at a time of the plan: where the withdrawal stands, what becomes of the stream's packets, and what is told.

use super::made::{captured, events_of, streamed, untagged, BEGINS, EPOCH, NANOSECONDS, PLAN};
use crate::capture::reading;
use crate::recording::report::Report;

/// The text form of the capture of packets where stream 5 is withdrawn at a time, without what it begins with, and the report.
fn withdrawn_at(time: u64, packets: &[(u64, Vec<u8>)]) -> (String, Report) {
    let (capture, report) = captured(&format!("{PLAN}withdraw 5 {time}\n"), &NANOSECONDS.recording(packets));
    let text = reading::text(&capture);
    (String::from(text.strip_prefix(BEGINS).expect("the plan's calls come first")), report)
}

#[test]
fn a_withdrawal_stands_between_the_packets_before_and_after_it() {
    let packets = [(7, streamed(60)), (1_007, streamed(60))];
    let between = "arrive 5 84 1\ntransmit\nwithdraw 5\narrive 5 84 2\n";
    for time in [1, 500, 1_000] {
        assert_eq!(withdrawn_at(time, &packets).0, between, "at {time}");
    }
    assert_eq!(withdrawn_at(0, &packets).0, "withdraw 5\narrive 5 84 1\ntransmit\narrive 5 84 2\n");
}

#[test]
fn a_withdrawal_at_the_epochs_end_comes_after_the_tick_and_before_the_packets() {
    let packets = [(0, streamed(60)), (EPOCH, streamed(60))];
    let text = "arrive 5 84 1\ntransmit\ntransmit\ntick\ntransmit\nwithdraw 5\narrive 5 84 2\n";
    assert_eq!(withdrawn_at(EPOCH, &packets).0, text);
    let text = "arrive 5 84 1\ntransmit\ntransmit\nwithdraw 5\ntick\ntransmit\narrive 5 84 2\n";
    assert_eq!(withdrawn_at(EPOCH - 1, &packets).0, text);
}

#[test]
fn a_withdrawal_brings_no_transmit() {
    let text = "best effort 84 1\ntransmit\ntransmit\nwithdraw 5\nbest effort 84 2\ntransmit\n";
    assert_eq!(withdrawn_at(50_000, &[(0, untagged(60)), (60_000, untagged(60))]).0, text);
}

#[test]
fn packets_of_a_stream_that_is_free_again_are_best_effort() {
    let free = 4 * EPOCH;
    let (text, report) = withdrawn_at(1, &[(0, streamed(60)), (free - 1, streamed(60)), (free, streamed(60)), (free + 1, streamed(60))]);
    let calls: Vec<&str> = text.lines().filter(|line| !["tick", "transmit"].contains(line)).collect();
    assert_eq!(calls, ["arrive 5 84 1", "withdraw 5", "arrive 5 84 2", "best effort 84 3", "best effort 84 4"]);
    assert_eq!((report.arrivals, report.best_effort, report.is_whole()), (2, 2, true));
}

#[test]
fn frames_that_wait_are_sent_after_a_withdrawal() {
    let packets = [(0, streamed(96)), (1_000, streamed(76))];
    let waiting = "arrive 5 120 1\ntransmit\narrive 5 100 2\n";
    assert_eq!(withdrawn_at(1_001, &packets).0, format!("{waiting}withdraw 5\ntransmit\ntick\ntransmit\n"));
    assert_eq!(withdrawn_at(100_000, &packets).0, format!("{waiting}transmit\nwithdraw 5\ntick\ntransmit\n"));
}

#[test]
fn a_withdrawal_after_the_end_is_told() {
    let packets = [(0, streamed(96)), (1_000, streamed(76))];
    for time in [EPOCH + 1, u64::MAX] {
        let (text, report) = withdrawn_at(time, &packets);
        assert_eq!(text, "arrive 5 120 1\ntransmit\narrive 5 100 2\ntransmit\ntick\ntransmit\n");
        assert!(!report.is_whole());
        let told = "1 not withdrawn, since the capture ends before: stream 5\n\
                    packets 2: arrivals 2, best effort 0, refused 0, left out 0; padded 0, epochs 2, events 8";
        assert_eq!(report.to_string(), told);
    }
}

#[test]
fn a_withdrawal_before_a_last_packet_without_an_event_is_in_the_capture() {
    let packets = [(0, untagged(60)), (2_000, untagged(1_997))];
    let (text, report) = withdrawn_at(1_000, &packets);
    assert_eq!((text.as_str(), report.not_withdrawn.len()), ("best effort 84 1\ntransmit\nwithdraw 5\n", 0));
    assert_eq!(withdrawn_at(2_001, &packets).1.not_withdrawn, [5]);
}

#[test]
fn without_packets_nothing_is_withdrawn() {
    let (text, report) = withdrawn_at(0, &[]);
    assert_eq!((text.as_str(), report.not_withdrawn), ("", vec![5]));
}

#[test]
fn withdrawals_stand_by_their_times_and_at_one_time_by_their_lines() {
    let plan = "epoch 200000\nopen 2500 1\nreserve 7 84\nreserve 5 84\nreserve 6 84\nwithdraw 6 900\nwithdraw 7 800\nwithdraw 5 900\n";
    let (events, report) = events_of(plan, &[(0, untagged(60)), (1_000, untagged(60))]);
    let calls: Vec<String> = events[4..].iter().map(|call| call.to_string()).collect();
    assert_eq!(calls[..6], ["best effort 84 1", "transmit", "withdraw 7", "withdraw 6", "withdraw 5", "best effort 84 2"]);
    assert!(report.is_whole());
}

#[test]
fn a_withdrawal_without_room_is_told() {
    let packets = |count: usize| -> Vec<(u64, Vec<u8>)> { (0..count).map(|_| (0, untagged(60))).collect() };
    // Open and Reserve, the packets, the transmit of the first, the withdrawal, and the transmits of the 27 that wait.
    let report = withdrawn_at(0, &packets(4_064)).1;
    assert_eq!((report.events, report.waiting, report.not_withdrawn.len(), report.is_whole()), (4_095, 0, 0, true));
    let report = withdrawn_at(1, &packets(4_064)).1;
    assert_eq!((report.events, report.waiting, report.not_withdrawn.len(), report.is_whole()), (4_095, 0, 0, true));
    let report = withdrawn_at(1, &packets(4_092)).1;
    assert_eq!((report.events, report.waiting, report.left_out.count), (4_095, 27, 0));
    assert_eq!(report.not_withdrawn, [5]);
}
