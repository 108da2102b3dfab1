//! Plans as they are read, and what is said of a bad one.

use super::made::{EPOCH, PLAN};
use crate::call::Call;
use crate::recording::plan::{read, Plan, Withdrawal};

/// The plan of a text that must be good.
fn plan(text: &str) -> Plan {
    read(text.as_bytes()).unwrap_or_else(|bad| panic!("{bad}, in\n{text}"))
}

/// What is said of a bad plan.
fn said_of(text: &str) -> String {
    read(text.as_bytes()).expect_err("a bad plan").to_string()
}

/// The plan of these tests, then lines.
fn with(lines: &str) -> String {
    format!("{PLAN}{lines}")
}

#[test]
fn a_plan_is_read() {
    let plan = plan(PLAN);
    assert_eq!(u64::from(plan.epoch), EPOCH);
    assert_eq!(plan.calls, [Call::Open { link: 2_500, delay: 1 }, Call::Reserve { stream: 5, permitted: 200 }]);
    let stream = plan.port.streams[5];
    assert_eq!((stream.permitted, stream.bound, stream.address, stream.vid), (200, 1, [0x01, 0x00, 0x5e, 0x00, 0x00, 0x05], 10));
    assert_eq!(plan.port.streams.iter().filter(|stream| stream.is_bound()).count(), 1);
}

#[test]
fn comments_blank_lines_and_the_order_make_no_difference() {
    let text = "# of the line\n\n open 2500  1\r\n\treserve 5 200 # samples\nbind 5 01:00:5E:00:00:05 10\nepoch 200000#\n";
    assert_eq!(plan(text), plan(PLAN));
}

#[test]
fn a_stream_need_not_be_bound_and_a_port_need_have_none() {
    assert_eq!(plan("epoch 1\nopen 2104 16\n").calls, [Call::Open { link: 2_104, delay: 16 }]);
    assert!(!plan("open 2500 1\nreserve 63 84\nepoch 4294967295").port.streams[63].is_bound());
}

#[test]
fn a_pair_is_address_and_vid() {
    let text = with("reserve 6 84\nreserve 7 84\nbind 6 01:00:5e:00:00:05 11\nbind 7 01:00:5e:00:00:04 10\n");
    assert_eq!(plan(&text).port.streams.iter().filter(|stream| stream.is_bound()).count(), 3);
}

#[test]
fn withdrawals_are_read_by_their_times() {
    let text = with("reserve 6 84\nwithdraw 6 18446744073709551615\nwithdraw 5 0 # at the first packet\nbind 6 01:00:5e:00:00:06 10\n");
    let plan = plan(&text);
    assert_eq!(plan.withdrawals, [Withdrawal { time: 0, stream: 5 }, Withdrawal { time: u64::MAX, stream: 6 }]);
    assert!(plan.port.streams[6].is_bound() && plan.port.streams.iter().all(|stream| !stream.is_draining()));
    assert_eq!(plan.calls.len(), 3);
}

#[test]
fn a_wrong_line_is_told() {
    let said = [
        (with("band 5"), "line 5: 'band' begins no line of a plan"),
        (with("tick"), "line 5: 'tick' begins no line of a plan"),
        (with("arrive 5 84 1"), "line 5: 'arrive' begins no line of a plan"),
        (with("\n# a comment\nbind"), "line 7: a stream is missing"),
        (with("bind 5"), "line 5: an address is missing"),
        (with("bind 5 01:00:5e:00:00:05"), "line 5: a VID is missing"),
        (with("bind 5 01:00:5e:00:00:05 10 11"), "line 5: refused with 10: stream bound already"),
        (with("reserve 6 84 1"), "line 5: '1' is one word too many"),
        (with("reserve 6"), "line 5: a P is missing"),
        (with("reserve 256 84"), "line 5: '256' is not a stream, which is a number from 0 to 255"),
        (with("bind 256 01:00:5e:00:00:05 1"), "line 5: '256' is not a stream, which is a number from 0 to 255"),
        (with("withdraw"), "line 5: a stream is missing"),
        (with("withdraw 5"), "line 5: a time is missing"),
        (with("withdraw 5 0 0"), "line 5: '0' is one word too many"),
        (with("withdraw 256 0"), "line 5: '256' is not a stream, which is a number from 0 to 255"),
        (with("withdraw 5 1.5"), "line 5: '1.5' is not a time, which is a number from 0 to 18446744073709551615"),
        (
            with("withdraw 5 18446744073709551616"),
            "line 5: '18446744073709551616' is not a time, which is a number from 0 to 18446744073709551615",
        ),
        (with("epoch 200000"), "line 5: the epoch has a length already"),
        (String::from("epoch"), "line 1: an epoch's length is missing"),
        (String::from("epoch 0"), "line 1: an epoch has at least 1 nanosecond"),
        (String::from("open 2500 1\n"), "line 1: no line before the end gives the epoch's length"),
        (String::from("epoch 1\n\n"), "line 1: no line before the end opens the port"),
        (String::new(), "line 1: no line before the end gives the epoch's length"),
    ];
    for (text, what) in said {
        assert_eq!(said_of(&text), what, "of {text:?}");
    }
    assert_eq!(read(b"epoch 1\n\xff").expect_err("no text").to_string(), "line 2: it is not text");
}

#[test]
fn a_wrong_address_is_told() {
    let wrong = [
        "01:00:5e:00:00",
        "01:00:5e:00:00:05:06",
        "1:00:5e:00:00:05",
        "001:00:5e:00:00:05",
        "01-00-5e-00-00-05",
        "0g:00:5e:00:00:05",
        "+1:00:5e:00:00:05",
        ":",
    ];
    for address in wrong {
        let said = format!("line 5: '{address}' is not an address, which is six octets as in 01:23:45:67:89:ab");
        assert_eq!(said_of(&with(&format!("bind 5 {address} 10"))), said);
    }
}

#[test]
fn what_a_call_would_refuse_is_told() {
    let bound = "01:00:5e:00:00:05";
    let said = [
        (String::from("reserve 5 200"), "line 1: refused with 1: port closed"),
        (format!("bind 5 {bound} 10"), "line 1: refused with 1: port closed"),
        (with("open 2500 1"), "line 5: refused with 2: open already"),
        (String::from("open 1626 1"), "line 1: refused with 3: L outside its range, 2,104 to 23,524"),
        (String::from("open 2103 0"), "line 1: refused with 3: L outside its range, 2,104 to 23,524"),
        (String::from("open 23525 1"), "line 1: refused with 3: L outside its range, 2,104 to 23,524"),
        (String::from("open 2500 17"), "line 1: refused with 4: K outside its range, 1 to 16"),
        (with("reserve 64 83"), "line 5: refused with 5: stream above 63"),
        (with("reserve 5 83"), "line 5: refused with 6: reserved already"),
        (with("reserve 6 83"), "line 5: refused with 7: P below 84"),
        (with("reserve 6 281"), "line 5: refused with 8: sum of P above the share, which is L less 2,020"),
        (with(&format!("bind 64 {bound} 0")), "line 5: refused with 5: stream above 63"),
        (with(&format!("bind 6 {bound} 0")), "line 5: refused with 12: stream not reserved"),
        (with(&format!("bind 5 {bound} 0")), "line 5: refused with 9: VID outside 1 to 4,094"),
        (with(&format!("bind 5 {bound} 4095")), "line 5: refused with 9: VID outside 1 to 4,094"),
        (with(&format!("bind 5 {bound} 65546")), "line 5: refused with 9: VID outside 1 to 4,094"),
        (with(&format!("bind 5 {bound} 10")), "line 5: refused with 10: stream bound already"),
        (with(&format!("reserve 6 280\nbind 6 {bound} 10")), "line 6: refused with 11: pair bound already"),
        (with(&format!("withdraw 5 0\nreserve 6 280\nbind 6 {bound} 10")), "line 7: refused with 11: pair bound already"),
        (with("withdraw 5 0\nreserve 6 281"), "line 6: refused with 8: sum of P above the share, which is L less 2,020"),
        (String::from("withdraw 5 0"), "line 1: refused with 1: port closed"),
        (with("withdraw 64 0"), "line 5: refused with 5: stream above 63"),
        (with("withdraw 6 0"), "line 5: refused with 12: stream not reserved"),
        (with("withdraw 5 0\nwithdraw 5 9"), "line 6: refused with 25: stream draining"),
    ];
    for (text, what) in said {
        assert_eq!(said_of(&text), what, "of {text:?}");
    }
}

#[test]
fn the_ends_of_the_ranges_are_granted() {
    let text = "open 23524 16\nepoch 1\nreserve 0 21420\nreserve 63 84\nbind 0 00:00:00:00:00:00 1\nbind 63 ff:ff:ff:ff:ff:ff 4094\n";
    assert_eq!(plan(text).calls.len(), 3);
}
