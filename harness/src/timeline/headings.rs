//! What stands above an event's column: what the call asks, and what of its reply the rows do not show.

use crate::call::{Call, Reply};
use crate::timeline::look::{NOTE, WARNING};
use crate::timeline::svg::Letters;
use crate::timeline::words;

/// The lines below an event's number.
pub fn lines(call: &Call, reply: &Reply) -> Vec<(String, Letters)> {
    let (asked, notes) = asked(call);
    let asked = [String::from(asked)].into_iter().chain(notes).map(|line| (line, NOTE));
    asked.chain(replied(call, reply)).collect()
}

/// A call's name, and its arguments as notes; stream and tag of a frame stand in its box.
pub fn asked(call: &Call) -> (&'static str, Vec<String>) {
    match *call {
        Call::Open { link, delay } => ("open", vec![format!("L {link}"), format!("K {delay}")]),
        Call::Reserve { stream, permitted } => ("reserve", vec![format!("{stream}: P {permitted}")]),
        Call::Arrive { charge, .. } => ("arrive", vec![format!("charge {charge}")]),
        Call::BestEffort { charge, .. } => (words::BEST_EFFORT, vec![format!("charge {charge}")]),
        Call::Tick => ("tick", vec![]),
        Call::Transmit => ("transmit", vec![]),
        Call::Withdraw { stream } => ("withdraw", vec![format!("stream {stream}")]),
        Call::Bind { .. } | Call::Frame { .. } => unreachable!("no event of a capture is a Bind or a Frame"),
        Call::ReadRegister { .. } | Call::WriteRegister { .. } => unreachable!("no event of a capture names a register"),
        Call::Lookup { .. } | Call::StreamCounts { .. } => unreachable!("no event of a capture asks of a port"),
    }
}

/// What is said of the reply.
fn replied(call: &Call, reply: &Reply) -> Vec<(String, Letters)> {
    if reply.refusal != 0 {
        return vec![(format!("refused {}", reply.refusal), WARNING)];
    }
    match call {
        Call::Arrive { .. } => vec![(format!("left {}", reply.second), NOTE)],
        Call::BestEffort { .. } => vec![(format!("W {}", reply.first), NOTE)],
        Call::Tick if reply.first > 0 => {
            vec![(format!("purges {}", reply.first), WARNING), (format!("{} octets", reply.second), WARNING)]
        }
        _ => vec![],
    }
}

/// Whether an event is a tick that ends an epoch: one that is granted.
pub fn is_tick((call, reply): &(Call, Reply)) -> bool {
    *call == Call::Tick && reply.refusal == 0
}

/// The epoch that each event is in or begins, from 0, which the open begins; none before it.
pub fn epochs(events: &[(Call, Reply)]) -> Vec<Option<usize>> {
    let mut epoch = None;
    let after = |event: &(Call, Reply)| {
        match event {
            (Call::Open { .. }, Reply { refusal: 0, .. }) => epoch = Some(0),
            tick if is_tick(tick) => epoch = epoch.map(|epoch| epoch + 1),
            _ => {}
        }
        epoch
    };
    events.iter().map(after).collect()
}

/// The name of an epoch.
pub fn epoch_name(epoch: Option<usize>) -> String {
    epoch.map_or(String::from("closed"), |epoch| format!("epoch {epoch}"))
}
