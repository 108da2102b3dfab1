//! The steps that are told as the reason of a reply: some word for word, and of all arrivals of the set that they end where the rule does.

use crate::call::{Call, Reply};
use crate::conformance::groups::GROUPS;
use crate::conformance::reasons::steps;
use crate::model::capture::events;
use crate::model::port::Port;
use crate::model::rule;
use crate::timeline::words::ROLES;

/// A port after events: L 2,620, K 1, stream 5 with P 200, then the others.
fn after(others: &[Call]) -> Port {
    let mut port = Port::closed();
    for event in [Call::Open { link: 2_620, delay: 1 }, Call::Reserve { stream: 5, permitted: 200 }].iter().chain(others) {
        rule::step(&event.given(), &mut port);
    }
    port
}

/// An arrival of stream 5.
fn arrive(charge: u32) -> Call {
    Call::Arrive { stream: 5, charge, tag: 7 }
}

/// Holds the steps to the rule's reply to a call against those expected.
#[track_caller]
fn are_told(before: Port, call: Call, expected: &[&str]) {
    let reply = rule::step(&call.given(), &mut before.clone());
    assert_eq!(steps(&call, &reply, &before), expected);
}

#[test]
fn an_arrival_that_fits() {
    let fits = "120 is within what is left: the frame joins current, and left falls to 80";
    are_told(after(&[]), arrive(120), &["stream 5, whose P is 200, is at current with left 200", fits]);
}

#[test]
fn an_exact_fit_after_an_advance() {
    are_told(
        after(&[arrive(120)]),
        arrive(200),
        &[
            "stream 5, whose P is 200, is at current with left 80",
            "200 is above 80, and the place is not last: it advances to next, and left becomes P, 200",
            "200 is within what is left: the frame joins next, and left falls to 0",
            "left is 0, and the place is not last: it advances to last, and left becomes P, 200",
        ],
    );
}

#[test]
fn a_discard() {
    are_told(
        after(&[arrive(200)]),
        arrive(201),
        &[
            "stream 5, whose P is 200, is at next with left 200",
            "201 is above 200, and the place is not last: it advances to last, and left becomes P, 200",
            "201 is above 200, and the place is last: the frame is discarded, and left becomes 0",
            "14 is the first that holds of the call's checks, in their order 1 5 25 12 13 14",
        ],
    );
}

#[test]
fn an_opening() {
    let open = |link| Call::Open { link, delay: 1 };
    are_told(Port::closed(), open(2_620), &["the share is L less the largest charge, 2620 − 2020 = 600"]);
    let checks = "3 is the first that holds of the call's checks, in their order 2 3 4";
    are_told(Port::closed(), open(2_103), &["L is 2103, outside 2104 to 23524", checks]);
    are_told(Port::closed(), open(23_525), &["L is 23525, outside 2104 to 23524", checks]);
}

#[test]
fn charges_outside_their_range() {
    let checks = "13 is the first that holds of the call's checks, in their order ";
    are_told(after(&[]), arrive(83), &["the charge is 83, outside 84 to 2020", &format!("{checks}1 5 25 12 13 14")]);
    let frame = Call::BestEffort { charge: 2_021, tag: 8 };
    are_told(after(&[]), frame, &["the charge is 2021, outside 84 to 2020", &format!("{checks}1 13 15 16")]);
}

#[test]
fn a_reservation() {
    let reserve = |permitted| Call::Reserve { stream: 6, permitted };
    are_told(after(&[]), reserve(400), &["R 200 and P 400 make 600, within the share 600"]);
    let above = "R 200 and P 401 make 601, above the share 600";
    are_told(after(&[]), reserve(401), &[above, "8 is the first that holds of the call's checks, in their order 1 5 25 6 7 8"]);
}

#[test]
fn best_effort() {
    let frame = |charge| Call::BestEffort { charge, tag: 8 };
    let within = "W 2020 and the charge 400 make 2420, within K × (L − R), 1 × (2620 − 200) = 2420";
    are_told(after(&[frame(2_020)]), frame(400), &[within]);
    let above = "W 2020 and the charge 401 make 2421, above K × (L − R), 1 × (2620 − 200) = 2420";
    are_told(after(&[frame(2_020)]), frame(401), &[above, "16 is the first that holds of the call's checks, in their order 1 13 15 16"]);
}

#[test]
fn a_withdrawal() {
    let withdraw = |stream| Call::Withdraw { stream };
    are_told(after(&[]), withdraw(5), &["stream 5, whose P is 200, drains from here on, and is free at tick 4"]);
    let drains = |ticks| ["stream 5 drains, and is free at tick ", ticks, " from here"].concat();
    let checks = "25 is the first that holds of the call's checks, in their order 1 5 25 12";
    are_told(after(&[withdraw(5)]), withdraw(5), &[&drains("4"), checks]);
    let two_ticks = after(&[withdraw(5), Call::Tick, Call::Tick]);
    are_told(two_ticks.clone(), arrive(84), &[&drains("2"), &format!("{checks} 13 14")]);
    let three_ticks = after(&[withdraw(5), Call::Tick, Call::Tick, Call::Tick]);
    let reserve = Call::Reserve { stream: 5, permitted: 84 };
    let at_the_next =
        ["stream 5 drains, and is free at the next tick", "25 is the first that holds of the call's checks, in their order 1 5 25 6 7 8"];
    are_told(three_ticks, reserve, &at_the_next);
    are_told(after(&[]), withdraw(6), &["12 is the first that holds of the call's checks, in their order 1 5 25 12"]);
}

#[test]
fn what_draining_streams_keep() {
    let withdraw = Call::Withdraw { stream: 5 };
    let of_r = "of R, 200 are of draining streams";
    let reserve = Call::Reserve { stream: 6, permitted: 401 };
    let above = "R 200 and P 401 make 601, above the share 600";
    let checks = "8 is the first that holds of the call's checks, in their order 1 5 25 6 7 8";
    are_told(after(&[withdraw.clone()]), reserve, &[above, of_r, checks]);
    let frame = |charge| Call::BestEffort { charge, tag: 8 };
    let above = "W 2020 and the charge 401 make 2421, above K × (L − R), 1 × (2620 − 200) = 2420";
    let checks = "16 is the first that holds of the call's checks, in their order 1 13 15 16";
    are_told(after(&[withdraw, frame(2_020)]), frame(401), &[above, of_r, checks]);
}

#[test]
fn what_waits() {
    let traffic = [arrive(100), arrive(100), Call::Tick, arrive(84), Call::BestEffort { charge: 90, tag: 8 }];
    let waits = "2 frames of 200 octets in prior, 1 frame of 84 octets in current, 1 frame of 90 octets in best effort before it";
    are_told(after(&traffic), Call::Transmit, &[waits]);
    are_told(after(&traffic), Call::Tick, &["2 frames of 200 octets in prior before it"]);
    are_told(after(&[]), Call::Transmit, &["no frame in prior, no frame in current, no frame in best effort before it"]);
}

#[test]
fn refusals_of_arguments() {
    are_told(after(&[]), Call::Open { link: 0, delay: 0 }, &["2 is the first that holds of the call's checks, in their order 2 3 4"]);
    are_told(Port::closed(), Call::Tick, &["1 is the first that holds of the call's checks, in their order 1"]);
}

#[test]
fn the_steps_of_each_arrival_end_where_the_rule_does() {
    GROUPS.iter().take(8).for_each(|group| steps_end_there(&events(&group.capture(1)).expect("a good capture")[0]));
}

/// Holds the steps of each arrival of a port against the rule's reply.
fn steps_end_there(events: &[Call]) {
    let mut port = Port::closed();
    for event in events {
        let before = port.clone();
        let reply = rule::step(&event.given(), &mut port);
        let is_arrival = matches!(event, Call::Arrive { .. });
        assert!(!is_arrival || ends_there(&steps(event, &reply, &before), &reply), "{event}: {reply}");
    }
}

/// Whether the steps of an arrival say what the reply does: the queue joined and what is left then, or a discard.
fn ends_there(steps: &[String], reply: &Reply) -> bool {
    let text = steps.join("; ");
    match reply.refusal {
        0 => {
            let joins = format!("the frame joins {},", ROLES[reply.first as usize]);
            text.contains(&joins) && text.ends_with(&format!(" {}", reply.second))
        }
        refusal => text.contains("the frame is discarded") && text.contains(&format!("{refusal} is the first")),
    }
}
