//! A capture of which a program printed other than the rule, told in words: where the two part, what either says there and why the rule does, how the
//! program ended, and the events before.

use std::time::Duration;

use crate::call::{Call, Reply};
use crate::conformance::difference::{Difference, How};
use crate::conformance::file_words;
use crate::conformance::line::{self, Line};
use crate::conformance::playing::{Due, Event, Playing};
use crate::conformance::reasons::steps;
use crate::conformance::said::{said, written_out};
use crate::model::port::{Frame, Port, BEST_EFFORT, NOTHING};
use crate::model::refusal::{DISCARD, DRAINING};
use crate::running::{End, Left};
use crate::timeline::words::{self, ROLES};

/// How many of the events before are told at most.
pub const TOLD_EVENTS: usize = 20;
/// How wide the lines are at most behind which the words stand in a column.
const TOLD_WIDTH: usize = 35;
/// How many lines of what a program wrote to standard error are told at most.
const TOLD_ERRORS: usize = 5;

/// A capture and what the rule prints of it, beside what a program left of it and where that first differs.
pub struct Parted<'a> {
    pub octets: &'a [u8],
    pub output: &'a str,
    pub left: &'a Left,
    pub difference: Option<Difference>,
}

impl Parted<'_> {
    /// Everything that is told, in lines.
    pub fn told(&self, time: Duration) -> Vec<String> {
        let playing = Playing::of(self.octets);
        let Some(difference) = &self.difference else {
            return [vec![String::from("the program prints what the rule does")], self.ending(time)].concat();
        };
        let due = playing.due(difference.line);
        [self.parting(difference, &due).to_vec(), self.ending(time), self.behind(&playing, difference, &due)].concat()
    }

    /// Where the two part, and what either says there.
    fn parting(&self, difference: &Difference, due: &Due) -> [String; 3] {
        let (place, rule_words) = match due {
            Due::Event(event) => (at(event), words::reply(event.call, &event.reply)),
            Due::Refused(refused) => (String::from("at the file, before any event"), words::refused_capture(refused)),
            Due::Nothing if difference.line == 0 => (String::from("at the file"), String::from("prints nothing: no port has events")),
            Due::Nothing => (String::from("after the last event"), format!("prints {} lines and no more", difference.line)),
        };
        let rule_line = self.output.lines().nth(difference.line).unwrap_or("nothing");
        let (program_line, program_words) = said(difference, due, self.output);
        let width = rule_line.chars().count().max(program_line.chars().count()).min(TOLD_WIDTH);
        [
            place,
            format!("the rule:     {rule_line:width$}   {rule_words}"),
            format!("the program:  {program_line:width$}   {program_words}"),
        ]
    }

    /// How the program ended, where it did not end as it should, and what it wrote to standard error.
    fn ending(&self, time: Duration) -> Vec<String> {
        let left = self.left;
        let mut lines = match left.end {
            End::Status(status) if status.success() => Vec::new(),
            End::Status(status) => vec![format!("the program ended with {status}")],
            End::TookTooLong => vec![format!("the program did not end and close its outputs within {time:?}, and was ended")],
            End::PrintedTooMuch => {
                vec![format!("the program was ended when it had printed {} octets; {} are due", left.stdout.len(), self.output.len())]
            }
        };
        if left.input_unread {
            lines.push(String::from("the program did not read its input to the end"));
        }
        let errors = String::from_utf8_lossy(&left.stderr);
        let told = errors.lines().filter(|line| !line.trim().is_empty()).take(TOLD_ERRORS);
        lines.extend(told.map(|line| format!("the program told on standard error: {}", written_out(line))));
        lines
    }

    /// What lies behind the rule's line: the steps to its reply and the events before, or what stands where the file is refused.
    fn behind(&self, playing: &Playing, difference: &Difference, due: &Due) -> Vec<String> {
        match (due, program_line(difference)) {
            (Due::Refused(refused), _) => [file_words::why(self.octets, refused), file_words::at(self.octets, refused.index)].concat(),
            (_, Some(Line::Refused { index, .. })) => file_words::at(self.octets, usize::try_from(index).unwrap_or(usize::MAX)),
            (Due::Event(event), line) => [why(playing, event), sent_instead(playing, event, line), before(playing, event)].concat(),
            (Due::Nothing, _) => Vec::new(),
        }
    }
}

/// The place of an event, and the event in words.
fn at(event: &Event) -> String {
    format!("at port {}, event {}: {}", event.port, event.number, words::call(event.call))
}

/// What the program's line says, if it is not the one that is due.
fn program_line(difference: &Difference) -> Option<Line> {
    match &difference.how {
        How::Other { printed, .. } | How::Surplus { printed } => line::read(printed),
        _ => None,
    }
}

/// The steps to the rule's reply, where the reply's own words do not say all; of an arrival also the event that brought its stream to where it is.
fn why(playing: &Playing, event: &Event) -> Vec<String> {
    let mut steps = steps(event.call, &event.reply, &playing.port_before(event.port, event.number));
    if let (Call::Arrive { stream, .. }, 0 | DISCARD | DRAINING) = (event.call, event.reply.refusal) {
        let since = playing.last_change(event.port, event.number, usize::from(*stream));
        steps[0] += &since.map(|number| format!(", since event {number}")).unwrap_or_default();
    }
    let heading = (!steps.is_empty()).then(|| String::from("why the rule says so:"));
    heading.into_iter().chain(steps.into_iter().map(|step| format!("  {step}"))).collect()
}

/// Where the frame waits, by the rule, that the program says it sends at a transmit.
fn sent_instead(playing: &Playing, event: &Event, line: Option<Line>) -> Vec<String> {
    match line.and_then(|line| line.reply_to(event)) {
        Some((0, [stream, tag])) if *event.call == Call::Transmit && stream != u64::from(NOTHING) => {
            let port = playing.port_before(event.port, event.number);
            vec![format!("the frame that the program sends {} by the rule", where_it_waits(&port, stream, tag))]
        }
        _ => Vec::new(),
    }
}

/// Where a frame waits in a port, by its stream and tag.
fn where_it_waits(port: &Port, stream: u64, tag: u64) -> String {
    let is_it = |frame: &Frame| (u64::from(frame.stream), u64::from(frame.tag)) == (stream, tag);
    let reserved = (0..).zip(ROLES).map(|(place, role)| (port.queue_at(place), role));
    let queues = reserved.chain([(BEST_EFFORT, words::BEST_EFFORT)]);
    let found = queues.filter_map(|(queue, role)| Some((role, port.queues[queue].frames.iter().position(is_it)? + 1))).next();
    found.map_or(String::from("does not wait"), |(role, place)| format!("is number {place} of those that wait in {role}"))
}

/// The events before, the last of them if they are many.
fn before(playing: &Playing, event: &Event) -> Vec<String> {
    let events = playing.up_to(event.port, event.number - 1);
    let (untold, told) = events.split_at(events.len().saturating_sub(TOLD_EVENTS));
    let port = event.port;
    let heading = match (told.len(), untold.len()) {
        (0, _) => format!("it is the first event of port {port}"),
        (_, 0) => format!("the events of port {port} before it, with the rule's replies:"),
        _ => format!("the last {TOLD_EVENTS} of the {} events of port {port} before it, with the rule's replies:", events.len()),
    };
    let numbered = (untold.len() + 1..).zip(told).map(|(number, (call, reply))| words::event(number, call, reply));
    let lines = earlier(event.call, untold, told).into_iter().chain(numbered).map(|line| format!("  {line}"));
    [heading].into_iter().chain(lines).collect()
}

/// The last event of an arrival's stream among those that are not told, where none of it is among those that are.
fn earlier(call: &Call, untold: &[(Call, Reply)], told: &[(Call, Reply)]) -> Option<String> {
    let Call::Arrive { stream, .. } = call else { return None };
    let is_own = |event: &(Call, Reply)| match &event.0 {
        Call::Reserve { stream: own, .. } | Call::Arrive { stream: own, .. } | Call::Withdraw { stream: own } => own == stream,
        _ => false,
    };
    let last = untold.iter().rposition(is_own).filter(|_| !told.iter().any(is_own))?;
    Some(format!("{}, the last of this stream; then", words::event(last + 1, &untold[last].0, &untold[last].1)))
}
