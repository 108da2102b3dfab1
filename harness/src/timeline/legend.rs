//! The legend: what the marks and letters mean that occur in the picture.

use std::collections::BTreeSet;

use crate::call::{Call, Reply};
use crate::model::port::{Frame, BEST_EFFORT_STREAM};
use crate::model::refusal;
use crate::timeline::draining::{self, Drain};
use crate::timeline::drawing::put_crossed;
use crate::timeline::following::{Stay, Went};
use crate::timeline::frames::{label, put_bar, put_box, put_purged};
use crate::timeline::look::{width, wrapped, Palette, BESIDE_BOX, BOX, LABEL, LEGEND_LINE, LEGEND_WRAPPED, MARGIN, REFUSAL, TICK};
use crate::timeline::svg::{Area, Point, Side, Svg, FOOT};

/// The width of a mark that has no label.
const MARK: i32 = 42;

/// What the notes in the headings mean, in the order in which it is told.
const NOTES: [&str; 6] = [
    "L: link octets in an epoch",
    "K: best-effort delay bound in epochs",
    "P: permitted octets of the stream per epoch",
    "R: sum of the reserved streams' P",
    "left: octets still free at the stream's place after the arrival",
    "W: sum of charges waiting in best effort",
];
/// The places of L and K in them.
const LINK_AND_DELAY: [usize; 2] = [0, 1];
/// The place of P in them.
const PERMITTED: usize = 2;
/// The place of R in them, of which refusal 16 speaks.
const PERMITTED_SUM: usize = 3;
/// The place of left in them.
const LEFT: usize = 4;
/// The place of W in them.
const WAITS: usize = 5;

/// The marks and notes that occur.
#[derive(Clone, Debug, Default, PartialEq, Eq)]
pub struct Marks {
    /// A frame of a stream.
    frame: Option<Frame>,
    /// A best-effort frame.
    best_effort: Option<Frame>,
    ticks: bool,
    purges: bool,
    /// Whether a frame still waits where a bar ends.
    waits: bool,
    /// A withdrawn stream.
    drain: Option<Drain>,
    /// The numbers of the refusals.
    refusals: BTreeSet<u8>,
    /// The notes, by their place.
    notes: BTreeSet<usize>,
}

/// A mark.
#[derive(Clone, Debug, PartialEq, Eq)]
enum Mark {
    Frame(Frame),
    Tick,
    Purge,
    Drain(Drain),
    Refusal(u8),
    None,
}

impl Marks {
    /// Adds those of an event that is shown.
    pub fn add_event(&mut self, call: &Call, reply: &Reply) {
        match (call, reply.refusal) {
            (Call::Open { .. }, _) => self.notes.extend(LINK_AND_DELAY),
            (Call::Reserve { .. }, _) => self.notes.extend([PERMITTED]),
            (Call::Arrive { .. }, 0) => self.notes.extend([LEFT]),
            (Call::BestEffort { .. }, 0) => self.notes.extend([WAITS]),
            (Call::BestEffort { .. }, refusal::BEST_EFFORT_EXCEEDED) => self.notes.extend([PERMITTED_SUM, WAITS]),
            (Call::Tick, 0) => self.ticks = true,
            _ => {}
        }
        self.refusals.extend(Some(reply.refusal).filter(|&refusal| refusal != 0));
    }

    /// Adds those of a stay of which something is shown; whether its end is, is given.
    pub fn add_stay(&mut self, stay: &Stay, ends: bool) {
        let frame = if stay.frame.stream == BEST_EFFORT_STREAM { &mut self.best_effort } else { &mut self.frame };
        frame.get_or_insert(stay.frame);
        self.purges |= ends && stay.went == Went::Purged;
        self.waits |= !ends || stay.went == Went::Carried;
    }

    /// Adds that of a withdrawn stream of which something is shown.
    pub fn add_drain(&mut self, drain: &Drain) {
        self.drain.get_or_insert(drain.clone());
    }

    /// Each mark with what it means, and the notes.
    fn meanings(&self) -> Vec<(Mark, String)> {
        let frames = [self.frame.map(of_stream), self.best_effort.map(of_best_effort)].into_iter().flatten();
        let mut meanings: Vec<(Mark, String)> = frames.collect();
        if self.ticks {
            let what = "tick: an epoch ends, prior is purged, current becomes prior, next becomes current, last becomes next";
            meanings.push((Mark::Tick, String::from(what)));
        }
        if self.purges {
            meanings.push((Mark::Purge, String::from("purged: the tick throws away a frame that waits in prior")));
        }
        meanings.extend(self.drain.clone().map(of_withdrawn));
        meanings.extend(self.refusals.iter().map(|&refusal| (Mark::Refusal(refusal), refused(refusal))));
        let waits = self.waits.then_some("a bar that reaches the right edge: the frame still waits");
        let notes: Vec<&str> = waits.into_iter().chain(self.notes.iter().map(|&note| NOTES[note])).collect();
        if !notes.is_empty() {
            meanings.push((Mark::None, notes.join("; ")));
        }
        meanings
    }
}

/// What the box of a stream's frame means.
fn of_stream(frame: Frame) -> (Mark, String) {
    let Frame { stream, tag, .. } = frame;
    let what = "the box where it joins a queue and where a tick has moved it, the bar while it waits, a line to the link where it is sent";
    (Mark::Frame(frame), format!("frame of stream {stream} with tag {tag}: {what}"))
}

/// What the box of a best-effort frame means.
fn of_best_effort(frame: Frame) -> (Mark, String) {
    (Mark::Frame(frame), format!("best-effort frame with tag {}, which no tick moves", frame.tag))
}

/// What the box of a withdrawn stream means.
fn of_withdrawn(drain: Drain) -> (Mark, String) {
    let what = "it takes no more frames, those that wait are sent, and its P still counts; after so many ticks it is free";
    let stream = drain.stream;
    (Mark::Drain(drain), format!("stream {stream} was withdrawn and drains: {what}"))
}

/// What a refusal means.
fn refused(number: u8) -> String {
    let words = refusal::words(number).unwrap_or("no refusal's number");
    match number {
        refusal::DISCARD => format!("refused, {words}: the frame joins no queue; its stream is at last with left 0"),
        _ => format!("refused: {words}"),
    }
}

/// Draws the legend below a height, as wide as the picture; the height below it.
pub fn draw(svg: &mut Svg, palette: &Palette, marks: &Marks, top: i32, right: i32) -> i32 {
    let frames = [marks.frame, marks.best_effort].into_iter().flatten();
    let labels = frames.map(|frame| label(&frame)).chain(marks.drain.as_ref().map(draining::label));
    let wide = labels.map(|label| width(&label, LABEL) + BESIDE_BOX).fold(MARK, i32::max);
    let left = MARGIN + wide + 3 * BESIDE_BOX;
    let mut top = top;
    for (mark, what) in marks.meanings() {
        put_mark(svg, palette, mark, Area { left: MARGIN, top, width: wide, height: BOX });
        let lines = wrapped(&what, LABEL, right - left);
        for (before, line) in lines.iter().enumerate() {
            svg.text(Point { x: left, y: top + BOX / 2 + FOOT + before as i32 * LEGEND_WRAPPED }, Side::Right, LABEL, line);
        }
        top += LEGEND_LINE + (lines.len() as i32 - 1) * LEGEND_WRAPPED;
    }
    top
}

/// Draws a mark.
fn put_mark(svg: &mut Svg, palette: &Palette, mark: Mark, area: Area) {
    let x = area.middle().x;
    match mark {
        Mark::Frame(frame) => {
            put_bar(svg, palette, frame.stream, area.middle(), area.right() + 2 * BESIDE_BOX);
            put_box(svg, palette, area, &frame);
        }
        Mark::Tick => svg.line(Point { x, y: area.top }, Point { x, y: area.bottom() }, TICK),
        Mark::Purge => put_purged(svg, area.middle()),
        Mark::Drain(drain) => draining::put_box(svg, palette, area, &drain),
        Mark::Refusal(number) => {
            put_crossed(svg, area);
            svg.text_in(area, REFUSAL, &number.to_string());
        }
        Mark::None => {}
    }
}
