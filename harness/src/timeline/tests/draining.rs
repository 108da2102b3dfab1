//! What is seen of withdrawn streams, derived by hand from document 02's first request.

use super::played;
use super::seen::Seen;
use super::tool::used;
use crate::call::Reply;
use crate::capture::stored;
use crate::timeline::drawn;

/// A stream that is withdrawn while a frame waits, and four ticks.
const WITHDRAWN: &str =
    "port 0\nopen 2620 1\nreserve 5 200\narrive 5 84 1\nwithdraw 5\narrive 5 84 2\ntick\ntransmit\ntick\ntick\ntick\nreserve 5 84\n";

/// Two streams that are withdrawn in different epochs, of which the first is reserved and withdrawn again while the other still drains.
const TWO: &str = "port 0\nopen 2620 1\nreserve 5 200\nreserve 6 200\nwithdraw 5\ntick\nwithdraw 6\ntick\ntick\ntick\n\
    reserve 5 84\nwithdraw 5\ntick\n";

/// What is seen in the picture of the events of a text form from a number on.
fn seen_from(text: &str, from: usize) -> Seen {
    Seen::of(&drawn(0, &played(text), from..=usize::MAX, "").expect("the events fit"))
}

/// What is seen in the picture of all events of a text form.
fn seen(text: &str) -> Seen {
    seen_from(text, 1)
}

/// Those of some things that are seen in the row of the withdrawn streams.
fn draining(things: Vec<String>) -> Vec<String> {
    things.into_iter().filter(|thing| thing.contains("draining ")).collect()
}

#[test]
fn a_withdrawn_stream_has_a_box_after_each_tick_until_it_is_free() {
    let seen = seen(WITHDRAWN);
    let boxes = ["4 draining 5: 4 ticks", "6 draining 5: 3 ticks", "8 draining 5: 2 ticks", "9 draining 5: 1 tick", "10 draining 5: free"];
    assert_eq!(draining(seen.boxes()), boxes);
    let bars = [
        "draining 5: 4 ticks from 4 to 5",
        "draining 5: 3 ticks from 6 to 7",
        "draining 5: 2 ticks from 8 to 8",
        "draining 5: 1 tick from 9 to 9",
    ];
    assert_eq!(draining(seen.bars()), bars);
}

#[test]
fn the_row_is_there_where_a_stream_drains_and_only_there() {
    assert_eq!(seen(WITHDRAWN).rows(), ["link", "prior", "current", "next", "last", "best effort", "draining", "refused"]);
    let refused = seen("port 0\nopen 2620 1\nwithdraw 5\nwithdraw 64\n");
    assert_eq!(refused.rows(), ["link", "prior", "current", "next", "last", "best effort", "refused"]);
    assert_eq!(refused.crossed(), ["2 refused withdraw 12", "3 refused withdraw 5"]);
    assert!(!seen_from(WITHDRAWN, 11).rows().contains(&"draining"));
}

#[test]
fn a_withdrawn_streams_frames_stand_where_they_stood() {
    let seen = seen(WITHDRAWN);
    let frames: Vec<String> = seen.boxes().into_iter().filter(|seen| !seen.contains("draining ")).collect();
    assert_eq!(frames, ["7 link stream 5 tag 1", "3 current 5: 1", "6 prior 5: 1"]);
    assert_eq!(seen.crossed(), ["5 refused 5: 2 25"]);
}

#[test]
fn streams_that_drain_at_once_have_lanes_of_their_own() {
    let seen = seen(TWO);
    let boxes = [
        "4 draining 5: 4 ticks",
        "5 draining 5: 3 ticks",
        "6 draining 6: 4 ticks",
        "7 draining 5: 2 ticks",
        "7 draining 6: 3 ticks",
        "8 draining 5: 1 tick",
        "8 draining 6: 2 ticks",
        "9 draining 5: free",
        "9 draining 6: 1 tick",
        "11 draining 5: 4 ticks",
        "12 draining 6: free",
        "12 draining 5: 3 ticks",
    ];
    assert_eq!(draining(seen.boxes()), boxes);
}

#[test]
fn a_stream_that_drains_stands_again_where_the_events_that_are_shown_begin() {
    let seen = seen_from(WITHDRAWN, 8);
    let boxes = ["before 8 draining 5: 3 ticks", "8 draining 5: 2 ticks", "9 draining 5: 1 tick", "10 draining 5: free"];
    assert_eq!(draining(seen.boxes()), boxes);
    assert_eq!(draining(seen.bars())[0], "draining 5: 3 ticks from before 8 to before 8");
}

#[test]
fn a_stream_that_still_drains_has_a_bar_to_the_right_edge() {
    let seen = seen("port 0\nopen 2620 1\nreserve 5 200\nwithdraw 5\ntick\ntransmit\ntransmit\n");
    assert_eq!(draining(seen.bars()), ["draining 5: 4 ticks from 3 to 3", "draining 5: 3 ticks from 4 to 6"]);
}

#[test]
fn a_pointer_that_rests_on_a_withdrawn_stream_is_told_what_it_is() {
    let seen = seen(WITHDRAWN);
    let told = [
        "stream 5, withdrawn at event 4: drains for 4 ticks",
        "stream 5, withdrawn at event 4: drains for 1 tick",
        "stream 5, withdrawn at event 4: free by the tick at event 10",
        "4 withdraw stream 5: withdraws, drains for 4 ticks",
        "6 tick: purges nothing; stream 5 drains for 3 ticks more",
        "10 tick: purges nothing; stream 5 is free",
    ];
    for title in told {
        assert!(seen.titles().contains(&title), "{title}");
    }
    assert!(["withdraw", "stream 5"].iter().all(|note| seen.texts().contains(note)));
}

#[test]
fn the_legend_tells_of_withdrawn_streams_where_there_are_some() {
    let told = "5: 4 ticks stream 5 was withdrawn and drains: it takes no more frames, those that wait are sent, and its P still counts; after so \
        many ticks it is free";
    let legend = seen(WITHDRAWN).legend().join(" ");
    assert!(legend.contains(told) && legend.contains("25 refused: stream draining"), "{legend}");
    assert!(!seen("port 0\nopen 2620 1\nwithdraw 5\ntick\n").legend().join(" ").contains("drains"));
}

#[test]
fn a_withdrawn_stream_has_the_colour_of_its_frames() {
    let seen = seen("port 0\nopen 2620 1\nreserve 5 200\nreserve 6 200\narrive 6 84 1\nwithdraw 5\nwithdraw 6\n");
    let fill = |label: &str| seen.looks().into_iter().find(|[own, ..]| own == label).expect("the box is there")[1].clone();
    assert_eq!(fill("6: 1"), fill("6: 4 ticks"));
    assert_ne!(fill("5: 4 ticks"), fill("6: 4 ticks"));
}

#[test]
fn another_make_that_frees_a_stream_sooner_is_drawn_as_it_replies() {
    let mut events = played("port 0\nopen 2620 1\nreserve 5 200\nwithdraw 5\ntick\nreserve 5 200\ntick\n");
    events[4].1 = Reply::granted(400, 0);
    let seen = Seen::of(&drawn(0, &events, 1..=6, "").expect("the events fit"));
    assert_eq!(draining(seen.boxes()), ["3 draining 5: 4 ticks", "4 draining 5: 3 ticks"]);
    assert_eq!(draining(seen.bars()), ["draining 5: 4 ticks from 3 to 3", "draining 5: 3 ticks from 4 to 4"]);
}

#[test]
fn another_make_that_takes_a_frame_or_a_withdrawal_or_opens_is_drawn_as_it_replies() {
    for call in ["arrive 5 84 1", "withdraw 5", "open 2620 1"] {
        let mut events = played(&format!("port 0\nopen 2620 1\nreserve 5 200\nwithdraw 5\n{call}\ntick\n"));
        events[3].1 = Reply::granted(0, 0);
        let seen = Seen::of(&drawn(0, &events, 1..=5, "").expect("the events fit"));
        let again: &[&str] = if call == "withdraw 5" { &["4 draining 5: 4 ticks", "5 draining 5: 3 ticks"] } else { &[] };
        assert_eq!(draining(seen.boxes()), [&["3 draining 5: 4 ticks"], again].concat(), "{call}");
    }
}

#[test]
fn ticks_say_in_words_what_drains_and_what_is_free() {
    let two = stored::one("withdraw_two_streams").expect("the capture can be read").octets;
    let said = used(&["--words"], &two).1;
    let ticks: Vec<&str> = said.lines().filter(|line| line.contains(" tick: ")).collect();
    let told = [
        "5 tick: purges nothing; stream 5 drains for 3 ticks more",
        "10 tick: purges nothing; stream 5 drains for 2 ticks more; stream 6 drains for 3 ticks more",
        "11 tick: purges nothing; stream 5 drains for 1 tick more; stream 6 drains for 2 ticks more",
        "13 tick: purges nothing; stream 5 is free; stream 6 drains for 1 tick more",
        "17 tick: purges nothing; stream 6 is free",
    ];
    assert_eq!(ticks, told);
    assert!(said.contains("\n4 withdraw stream 5: withdraws, drains for 4 ticks\n"));
    assert!(said.contains("\n8 arrive on stream 6, charge 84, tag 2: refused with 25: stream draining\n"));
}
