//! What is seen in the pictures of small captures, derived by hand from document 01.

use super::seen::Seen;
use super::{any_events, played, SAMPLE};
use crate::call::Reply;
use crate::comparing::random::Random;
use crate::timeline::drawn;

/// What is seen in the picture of all events of a text form.
fn seen(text: &str) -> Seen {
    Seen::of(&drawn(0, &played(text), 1..=usize::MAX, "").expect("the events fit"))
}

#[test]
fn the_samples_frames_stand_where_they_join_and_where_a_tick_moves_them() {
    let seen = seen(SAMPLE);
    assert_eq!(seen.boxes(), ["5 link stream 5 tag 7", "8 link stream 5 tag 8", "3 current 5: 7", "4 next 5: 8", "7 current 5: 8"]);
    assert_eq!(seen.nothing_sent(), ["6 nothing"]);
    assert_eq!(seen.bars(), ["current 5: 7 from 3 to 5", "next 5: 8 from 4 to 6", "current 5: 8 from 7 to 8"]);
    assert_eq!(seen.ways(), ["5: 7 from current to link at 5", "5: 8 from next to current at 7", "5: 8 from current to link at 8"]);
}

#[test]
fn the_samples_tick_stands_between_its_epochs() {
    let seen = seen(SAMPLE);
    assert_eq!(seen.rows(), ["link", "prior", "current", "next", "last", "best effort"]);
    assert_eq!(seen.ticks(), ["7"]);
    assert_eq!(seen.epochs(), ["epoch 0 from 1", "epoch 1 from 7"]);
    assert_eq!((seen.purges(), seen.crossed()), (vec![], vec![]));
}

#[test]
fn purged_frames_are_crossed_at_their_tick() {
    let seen = seen("port 0\nopen 2620 1\nreserve 5 200\narrive 5 84 1\narrive 5 84 2\narrive 5 84 3\ntick\ntick\ntick\n");
    assert_eq!(seen.purges(), ["5: 1 in prior at 7", "5: 2 in prior at 7", "5: 3 in prior at 8"]);
    assert_eq!(
        seen.bars()[3..],
        ["prior 5: 1 from 6 to 6", "prior 5: 2 from 6 to 6", "current 5: 3 from 6 to 6", "prior 5: 3 from 7 to 7"]
    );
    let words: Vec<&str> = seen.texts().into_iter().filter(|text| text.starts_with("purge") || text.ends_with("octets")).collect();
    assert_eq!(words, ["purges 2", "168 octets", "purges 1", "84 octets", "purged: the tick throws away a frame that waits in prior"]);
}

#[test]
fn a_tick_that_purges_nothing_has_no_such_mark() {
    let seen = seen("port 0\nopen 2620 1\nreserve 5 200\narrive 5 84 1\ntick\ntransmit\ntick\n");
    assert_eq!((seen.ticks(), seen.purges()), (vec!["4", "6"], vec![]));
    assert!(!seen.texts().iter().any(|text| text.contains("purges") || text.contains("purged:")));
}

#[test]
fn a_discard_is_crossed_out() {
    let seen = seen("port 0\nopen 2620 1\nreserve 5 200\narrive 5 201 9\ntick\narrive 5 84 10\n");
    assert_eq!(seen.crossed(), ["3 refused 5: 9 14"]);
    assert_eq!(seen.boxes(), ["5 last 5: 10"]);
    assert!(seen.texts().contains(&"refused 14"));
    assert!(seen.texts().iter().any(|text| text.starts_with("refused, discard: ")));
    assert_eq!(seen.rows().last(), Some(&"refused"));
}

#[test]
fn other_refusals_are_crossed_out_with_their_numbers() {
    let seen = seen("port 0\ntick\nopen 2620 17\nopen 2620 1\nreserve 5 601\narrive 5 100 1\nbest effort 2021 2\nopen 2620 1\n");
    let crossed =
        ["1 refused tick 1", "2 refused open 4", "4 refused reserve 8", "5 refused 5: 1 12", "6 refused 2 13", "7 refused open 2"];
    assert_eq!(seen.crossed(), crossed);
    let words: Vec<&str> = seen.texts().into_iter().filter(|text| text.starts_with("refused: ")).collect();
    assert_eq!(words.len(), 6);
    assert!(words.contains(&"refused: sum of P above the share, which is L less 2,020"));
}

#[test]
fn a_refused_tick_ends_no_epoch() {
    let seen = seen("port 0\ntick\nopen 2620 1\ntransmit\ntick\ntransmit\ntick\n");
    assert_eq!(seen.ticks(), ["4", "6"]);
    assert_eq!(seen.epochs(), ["closed from 1", "epoch 0 from 2", "epoch 1 from 4", "epoch 2 from 6"]);
}

#[test]
fn best_effort_waits_across_ticks_and_is_sent_after_the_reserved_frames() {
    let seen = seen("port 0\nopen 2620 1\nreserve 5 200\nbest effort 400 1\narrive 5 100 2\ntick\ntransmit\ntransmit\n");
    assert_eq!(seen.boxes(), ["6 link stream 5 tag 2", "7 link best effort tag 1", "3 best effort 1", "4 current 5: 2", "5 prior 5: 2"]);
    assert_eq!(seen.bars(), ["best effort 1 from 3 to 7", "current 5: 2 from 4 to 4", "prior 5: 2 from 5 to 6"]);
    assert_eq!(seen.ways(), ["1 from best effort to link at 7", "5: 2 from current to prior at 5", "5: 2 from prior to link at 6"]);
}

#[test]
fn frames_of_equal_stream_and_tag_are_followed_oldest_first() {
    let seen =
        seen("port 0\nopen 2620 1\nreserve 5 200\narrive 5 100 1\narrive 5 100 1\narrive 5 100 1\ntick\ntransmit\ntransmit\ntransmit\n");
    let bars = ["prior 5: 1 from 6 to 7", "prior 5: 1 from 6 to 8", "current 5: 1 from 6 to 9"];
    assert_eq!(seen.bars()[3..], bars);
}

#[test]
fn notes_say_what_was_asked_and_what_is_left() {
    let texts = [
        "open",
        "L 2620",
        "K 1",
        "reserve",
        "5: P 200",
        "arrive",
        "charge 120",
        "left 80",
        "best effort",
        "charge 84",
        "W 84",
        "tick",
        "transmit",
    ];
    let seen = seen("port 0\nopen 2620 1\nreserve 5 200\narrive 5 120 7\nbest effort 84 8\ntick\ntransmit\n");
    for text in texts {
        assert!(seen.texts().contains(&text), "{text}");
    }
}

#[test]
fn what_waits_stands_again_where_the_events_that_are_shown_begin() {
    let drawn = drawn(0, &played(SAMPLE), 6..=7, "").expect("the events fit");
    let seen = Seen::of(&drawn);
    assert_eq!(seen.boxes(), ["before 6 next 5: 8", "7 current 5: 8"]);
    assert_eq!(seen.bars(), ["next 5: 8 from before 6 to 6", "current 5: 8 from 7 to 7"]);
    assert_eq!(seen.epochs(), ["epoch 0 from before 6", "epoch 1 from 7"]);
    assert!(seen.texts().contains(&"port 0, events 6 to 7 of 8"));
}

#[test]
fn a_band_that_begins_with_a_tick_shows_what_waits_before_it() {
    let drawn = drawn(0, &played(SAMPLE), 7..=8, "").expect("the events fit");
    let seen = Seen::of(&drawn);
    assert_eq!(seen.boxes(), ["8 link stream 5 tag 8", "before 7 next 5: 8", "7 current 5: 8"]);
    assert_eq!(seen.epochs(), ["epoch 0 from before 7", "epoch 1 from 7"]);
    assert_eq!(seen.ticks(), ["7"]);
}

#[test]
fn a_stream_has_a_colour_of_its_own_and_best_effort_a_broken_edge() {
    let seen = seen(
        "port 0\nopen 2620 1\nreserve 5 200\nreserve 6 200\narrive 5 84 1\narrive 6 84 2\nbest effort 84 3\ntick\n\
        transmit\ntransmit\ntransmit\n",
    );
    let looks = seen.looks();
    let fills = |labels: [&str; 3]| labels.map(|label| looks.iter().find(|[own, ..]| own == label).expect("the box is there")[1].clone());
    let [five, six, best_effort] = fills(["5: 1", "6: 2", "3"]);
    assert!(five != six && six != best_effort && five != best_effort);
    assert_eq!(fills(["stream 5 tag 1", "stream 6 tag 2", "best effort tag 3"]), [five.clone(), six.clone(), best_effort.clone()]);
    for [label, fill, edge] in &looks {
        assert_eq!(edge.is_empty(), *fill != best_effort, "{label}");
        assert!([&five, &six, &best_effort].contains(&fill), "{label}");
    }
}

#[test]
fn a_pointer_that_rests_on_something_is_told_what_it_is() {
    let seen = seen("port 0\nopen 2620 1\nreserve 5 200\narrive 5 84 1\ntick\ntick\narrive 5 84 2\nbest effort 84 3\ntransmit\n");
    let titles = seen.titles();
    let told = [
        "current",
        "stream 5, charge 84, tag 1: in current since event 3, moved on by the tick at event 4",
        "stream 5, charge 84, tag 1: in prior since event 4, purged by the tick at event 5",
        "stream 5, charge 84, tag 2: in current since event 6, sent at event 8",
        "best effort, charge 84, tag 3: in best effort since event 7, still waiting after the last event",
        "3 arrive on stream 5, charge 84, tag 1: joins current, 116 left",
        "5 tick: purges 1 frame, 84 octets",
    ];
    for title in told {
        assert!(titles.contains(&title), "{title}");
    }
}

#[test]
fn the_legend_tells_what_occurs_and_no_more() {
    let told = |text: &str| seen(text).legend().join(" ");
    let frame = "5: 1 frame of stream 5 with tag 1: the box where it joins a queue and where a tick has moved it, the bar while it waits, a line to \
        the link where it is sent";
    let tick = "tick: an epoch ends, prior is purged, current becomes prior, next becomes current, last becomes next";
    let notes = "L: link octets in an epoch; K: best-effort delay bound in epochs";
    let reserved = format!("{notes}; P: permitted octets of the stream per epoch");
    assert_eq!(told("port 0\nopen 2620 1\ntransmit\n"), notes);
    assert_eq!(told("port 0\nopen 2620 1\ntick\n"), format!("{tick} {notes}"));
    let left = "left: octets still free at the stream's place after the arrival";
    assert_eq!(told("port 0\nopen 2620 1\nreserve 5 200\narrive 5 84 1\ntransmit\n"), format!("{frame} {reserved}; {left}"));
    let best_effort = "2 best-effort frame with tag 2, which no tick moves a bar that reaches the right edge: the frame still waits";
    assert_eq!(
        told("port 0\nopen 2620 1\nbest effort 84 2\n"),
        format!("{best_effort}; {notes}; W: sum of charges waiting in best effort")
    );
    let first = "1 best-effort frame with tag 1, which no tick moves";
    let exceeded = "16 refused: W + charge above K × (L − R)";
    let sums = "R: sum of the reserved streams' P; W: sum of charges waiting in best effort";
    assert_eq!(
        told("port 0\nopen 2104 1\nreserve 5 84\nbest effort 2020 1\nbest effort 84 2\ntransmit\n"),
        format!("{first} {exceeded} {reserved}; {sums}")
    );
    let discard = "14 refused, discard: the frame joins no queue; its stream is at last with left 0";
    assert_eq!(told("port 0\nopen 2620 1\nreserve 5 200\narrive 5 201 1\n"), format!("{discard} {reserved}"));
}

#[test]
fn replies_of_another_make_are_drawn_as_they_are() {
    let mut events = played(SAMPLE);
    events[3].1 = Reply::granted(1, 180);
    events[5].1 = Reply::granted(5, 8);
    events[7].1 = Reply::granted(9, 1);
    let seen = Seen::of(&drawn(0, &events, 1..=8, "").expect("the events fit"));
    let boxes = ["5 link stream 5 tag 7", "6 link stream 5 tag 8", "8 link stream 9 tag 1", "3 current 5: 7", "4 current 5: 8"];
    assert_eq!(seen.boxes(), boxes);
    assert_eq!(seen.ways(), ["5: 7 from current to link at 5", "5: 8 from current to link at 6"]);
}

/// A reply that is any, or, as often, the one that is given.
fn any_reply(random: &mut Random, reply: Reply) -> Reply {
    if random.chance(50) {
        return reply;
    }
    let first = random.pick(&[0, 1, 3, 4, 5, 254, 255, u32::MAX]);
    Reply { refusal: random.pick(&[0, 0, 1, 14, 255]), first, second: random.number() }
}

#[test]
fn any_replies_can_be_drawn() {
    for number in 0..20 {
        let random = &mut Random::of(1, "any replies", number);
        let events = any_events(random).into_iter().map(|(call, reply)| (call, any_reply(random, reply)));
        Seen::of(&drawn(0, &events.collect::<Vec<_>>(), 1..=usize::MAX, "").expect("the events fit"));
    }
}
