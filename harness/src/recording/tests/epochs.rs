//! Ticks by the packets' times, and what follows the last packet.

use super::made::{events_of, streamed, text_of, untagged, EPOCH, PLAN};
use crate::call::Call;

#[test]
fn a_packet_just_before_the_epochs_end_comes_before_the_tick() {
    let text = "best effort 84 1\ntransmit\ntransmit\nbest effort 84 2\ntransmit\n";
    assert_eq!(text_of(&[(0, untagged(60)), (EPOCH - 1, untagged(60))]), text);
}

#[test]
fn a_packet_at_the_epochs_end_comes_after_the_tick() {
    let text = "best effort 84 1\ntransmit\ntransmit\ntick\ntransmit\nbest effort 84 2\ntransmit\n";
    assert_eq!(text_of(&[(0, untagged(60)), (EPOCH, untagged(60))]), text);
    assert_eq!(text_of(&[(0, untagged(60)), (EPOCH + 1, untagged(60))]), text);
}

#[test]
fn epochs_count_from_the_first_packet() {
    let packets = |begin: u64| [(begin, streamed(60)), (begin + EPOCH - 1, streamed(60)), (begin + EPOCH, untagged(60))];
    for begin in [1, EPOCH - 1, 999_999_999, 1_700_000_000_123_456_789] {
        assert_eq!(text_of(&packets(begin)), text_of(&packets(0)));
    }
}

#[test]
fn every_epoch_of_a_silence_has_its_tick() {
    let silence = "tick\ntransmit\n".repeat(7);
    let text = format!("best effort 84 1\ntransmit\ntransmit\n{silence}best effort 84 2\ntransmit\n");
    assert_eq!(text_of(&[(0, untagged(60)), (8 * EPOCH - 1, untagged(60))]), text);
}

#[test]
fn an_epoch_may_have_one_nanosecond() {
    let (events, report) = events_of("epoch 1\nopen 2500 1", &[(7, untagged(60)), (10, untagged(60))]);
    assert_eq!(events.iter().filter(|call| **call == Call::Tick).count(), 3);
    assert_eq!((report.epochs, report.events), (4, 12));
}

#[test]
fn the_ticks_go_on_until_all_that_waits_is_sent() {
    let text = "arrive 5 120 1\ntransmit\narrive 5 100 2\narrive 5 200 3\ntransmit\ntick\ntransmit\ntransmit\ntick\ntransmit\n";
    assert_eq!(text_of(&[(0, streamed(96)), (1_000, streamed(76)), (2_000, streamed(176))]), text);
}

#[test]
fn nothing_follows_a_last_packet_that_is_sent_or_refused() {
    assert_eq!(text_of(&[(0, untagged(60))]), "best effort 84 1\ntransmit\n");
    assert_eq!(text_of(&[(0, streamed(177))]), "arrive 5 201 1\n");
}

#[test]
fn a_recording_without_packets_opens_the_port() {
    let (events, report) = events_of(PLAN, &[]);
    assert_eq!(events.len(), 2);
    assert_eq!((report.packets, report.epochs, report.events), (0, 0, 2));
}

#[test]
fn packets_of_earlier_times_arrive_at_the_latest_time_so_far() {
    let at = |times: [u64; 6]| times.map(|time| (time, streamed(60)));
    let latest = EPOCH + 10;
    let in_order = at([EPOCH, latest, latest, latest, latest, 2 * EPOCH]);
    let out_of_order = at([EPOCH, latest, latest - 1, 0, latest - 5, 2 * EPOCH]);
    assert_eq!(text_of(&out_of_order), text_of(&in_order));
    let report = events_of(PLAN, &out_of_order).1;
    assert_eq!((report.earlier.count, report.earlier.first, report.epochs), (3, vec![3, 4, 5], 3));
    assert_eq!(events_of(PLAN, &in_order).1.earlier.count, 0);
}

#[test]
fn a_packet_that_is_refused_with_17_begins_epoch_0_and_brings_no_tick() {
    let packets = [(0, untagged(1_997)), (EPOCH, untagged(60)), (9 * EPOCH, untagged(1_997))];
    assert_eq!(text_of(&packets), "tick\ntransmit\nbest effort 84 2\ntransmit\n");
}
