//! What the events of the seeded captures do, counted: each reply of each kind occurs often, most events are granted, and runs go over many epochs.

use std::collections::BTreeMap;

use crate::call::{Call, Reply};
use crate::comparing::coverage::is_envelope;
use crate::conformance::groups::GROUPS;
use crate::model::capture::{events, Refused};
use crate::model::port::{Port, BEST_EFFORT_STREAM, LAST, NOTHING};
use crate::model::refusal::DISCARD;
use crate::model::rule;
use crate::timeline::words::ROLES;

/// How often each thing must happen at least, by its name.
const DEMANDED: [(&str, usize); 57] = [
    ("open granted", 1_500),
    ("open refused 2", 1_000),
    ("open refused 3", 100),
    ("open refused 4", 50),
    ("reserve granted", 5_000),
    ("reserve refused 1", 100),
    ("reserve refused 5", 500),
    ("reserve refused 6", 500),
    ("reserve refused 7", 500),
    ("reserve refused 8", 500),
    ("reserve refused 25", 500),
    ("reserve grants a number again", 1_500),
    ("arrive joins current", 50_000),
    ("arrive joins next", 20_000),
    ("arrive joins last", 10_000),
    ("arrive joins current, exact fit", 10_000),
    ("arrive joins next, exact fit", 5_000),
    ("arrive joins last, exact fit", 2_000),
    ("arrive joins next after an advance", 10_000),
    ("arrive joins last after an advance", 5_000),
    ("arrive refused 1", 100),
    ("arrive refused 5", 500),
    ("arrive refused 12", 500),
    ("arrive refused 13", 500),
    ("arrive refused 14", 10_000),
    ("arrive refused 25", 2_000),
    ("best effort granted", 20_000),
    ("best effort at the limit", 1_000),
    ("best effort one above the limit", 300),
    ("best effort refused 1", 50),
    ("best effort refused 13", 200),
    ("best effort refused 15", 50),
    ("best effort refused 16", 2_000),
    ("tick purges nothing", 20_000),
    ("tick purges frames", 10_000),
    ("tick frees a stream", 1_500),
    ("tick refused 1", 50),
    ("transmit from prior", 20_000),
    ("transmit from current", 20_000),
    ("transmit of best effort", 10_000),
    ("transmit of nothing", 10_000),
    ("transmit refused 1", 100),
    ("withdraw granted", 2_000),
    ("withdraw refused 1", 50),
    ("withdraw refused 5", 80),
    ("withdraw refused 12", 300),
    ("withdraw refused 25", 500),
    ("envelope frame joins current", 1_000),
    ("envelope frame joins next", 1_000),
    ("envelope frame joins last", 500),
    ("envelope frame discarded", 500),
    ("envelope frame joins best effort", 1_000),
    ("file refused 21", 40),
    ("file refused 22", 20),
    ("file refused 23", 60),
    ("file refused 24", 60),
    ("port of at least ten epochs", 1_000),
];

/// How many of a hundred events are granted at least.
const GRANTED: usize = 85;

/// How often each thing happened.
type Counts = BTreeMap<String, usize>;

#[test]
fn every_reply_occurs_often() {
    let counts = counts();
    for (what, least) in DEMANDED {
        let times = counts.get(what).copied().unwrap_or_default();
        assert!(times >= least, "{what}: {times} times, at least {least} asked");
    }
    let unknown = counts.keys().find(|what| !DEMANDED.iter().any(|(known, _)| known == what));
    assert_eq!(unknown, None, "nothing is asked of it");
}

#[test]
fn most_events_are_granted() {
    let counts = counts();
    let events = |is_event: fn(&str) -> bool| -> usize { counts.iter().filter(|(what, _)| is_event(what)).map(|(_, times)| times).sum() };
    let refused = events(|what| what.contains(" refused ") && !what.starts_with("file"));
    let granted = events(|what| what.ends_with(" granted") || what.starts_with("tick purges") || is_sent(what) || is_joined(what));
    assert!(100 * granted >= GRANTED * (granted + refused), "{granted} granted, {refused} refused");
}

/// Whether a transmit that was granted is counted by this name.
fn is_sent(what: &str) -> bool {
    what.starts_with("transmit from") || what.starts_with("transmit of")
}

/// Whether an arrival that was granted is counted by this name, and by no further one.
fn is_joined(what: &str) -> bool {
    ["arrive joins current", "arrive joins next", "arrive joins last"].contains(&what)
}

/// What happens in all seeded captures.
fn counts() -> Counts {
    let mut counts = Counts::new();
    for octets in GROUPS.iter().flat_map(|group| (1..=group.captures()).map(|number| group.capture(number))) {
        match events(&octets) {
            Err(Refused { refusal, .. }) => count(&mut counts, format!("file refused {refusal}")),
            Ok(ports) => ports.iter().for_each(|events| count_port(&mut counts, events)),
        }
    }
    counts
}

/// Counts one thing.
fn count(counts: &mut Counts, what: String) {
    *counts.entry(what).or_default() += 1;
}

/// Counts what the events of a port do.
fn count_port(counts: &mut Counts, events: &[Call]) {
    let (mut port, mut ticks) = (Port::closed(), 0);
    for event in events {
        let before = port.clone();
        let reply = rule::step(&event.given(), &mut port);
        ticks += usize::from(*event == Call::Tick && reply.refusal == 0);
        done(event, &reply, &before, &port).into_iter().chain(envelope(event, &reply)).for_each(|what| count(counts, what));
    }
    if ticks >= 10 {
        count(counts, String::from("port of at least ten epochs"));
    }
}

/// What an event did, by its reply and the port before and after it.
fn done(event: &Call, reply: &Reply, before: &Port, after: &Port) -> Vec<String> {
    match *event {
        Call::BestEffort { charge, .. } => best_effort(charge, reply, after),
        _ if reply.refusal != 0 => vec![format!("{} refused {}", kind(event), reply.refusal)],
        Call::Arrive { stream, .. } => joined(usize::from(stream), reply, before, after),
        Call::Tick => tick(reply, before, after),
        Call::Reserve { stream, .. } if before.streams[usize::from(stream)].permitted > 0 => {
            vec![String::from("reserve granted"), String::from("reserve grants a number again")]
        }
        Call::Transmit => vec![String::from(match reply.first {
            NOTHING => "transmit of nothing",
            BEST_EFFORT_STREAM => "transmit of best effort",
            _ if before.queues[before.prior].frames.is_empty() => "transmit from current",
            _ => "transmit from prior",
        })],
        _ => vec![format!("{} granted", kind(event))],
    }
}

/// Where an envelope frame joined, or that it was discarded.
fn envelope(event: &Call, reply: &Reply) -> Option<String> {
    let joins = match (event, reply.refusal) {
        (Call::Arrive { charge, .. }, 0) if is_envelope(*charge) => format!("joins {}", ROLES[reply.first as usize]),
        (Call::Arrive { charge, .. }, DISCARD) if is_envelope(*charge) => String::from("discarded"),
        (Call::BestEffort { charge, .. }, 0) if is_envelope(*charge) => String::from("joins best effort"),
        _ => return None,
    };
    Some(format!("envelope frame {joins}"))
}

/// What a tick purged, and whether it freed a stream.
fn tick(reply: &Reply, before: &Port, after: &Port) -> Vec<String> {
    let purges = if reply.first == 0 { "tick purges nothing" } else { "tick purges frames" };
    let frees = before.streams.iter().zip(&after.streams).any(|(before, after)| before.is_reserved() && !after.is_reserved());
    [(true, purges), (frees, "tick frees a stream")].iter().filter(|(is, _)| *is).map(|(_, what)| String::from(*what)).collect()
}

/// The kind of an event in words.
fn kind(event: &Call) -> &'static str {
    match event {
        Call::Open { .. } => "open",
        Call::Reserve { .. } => "reserve",
        Call::Arrive { .. } => "arrive",
        Call::BestEffort { .. } => "best effort",
        Call::Tick => "tick",
        Call::Transmit => "transmit",
        Call::Withdraw { .. } => "withdraw",
        Call::Bind { .. } | Call::Frame { .. } => unreachable!("no event of a capture is a Bind or a Frame"),
        Call::ReadRegister { .. } | Call::WriteRegister { .. } => unreachable!("no event of a capture names a register"),
        Call::Lookup { .. } | Call::StreamCounts { .. } => unreachable!("no event of a capture asks of a port"),
    }
}

/// Where a frame joined, whether it was an exact fit, and whether its stream advanced for it.
fn joined(stream: usize, reply: &Reply, before: &Port, after: &Port) -> Vec<String> {
    let (was, is) = (&before.streams[stream], &after.streams[stream]);
    let joins = format!("arrive joins {}", ROLES[reply.first as usize]);
    let exact = u32::from(is.place) != reply.first || (is.place == LAST && is.left == 0);
    let advanced = u32::from(was.place) != reply.first;
    [(true, ""), (exact, ", exact fit"), (advanced, " after an advance")]
        .iter()
        .filter(|(is, _)| *is)
        .map(|(_, what)| joins.clone() + what)
        .collect()
}

/// How a best-effort frame ended, and how near it came to the limit.
fn best_effort(charge: u32, reply: &Reply, after: &Port) -> Vec<String> {
    let reserved: u32 = after.streams.iter().filter(|stream| stream.is_reserved()).map(|stream| stream.permitted).sum();
    let limit = after.delay * (after.link - reserved);
    match reply.refusal {
        0 if after.waits == limit => vec![String::from("best effort granted"), String::from("best effort at the limit")],
        0 => vec![String::from("best effort granted")],
        16 if after.waits + charge == limit + 1 => {
            vec![String::from("best effort refused 16"), String::from("best effort one above the limit")]
        }
        refusal => vec![format!("best effort refused {refusal}")],
    }
}
