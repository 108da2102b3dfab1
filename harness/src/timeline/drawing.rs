//! Draws a band of a port: the epochs and the ticks between them, the rows with their names, the headings, what the link sends and what is refused.
//! The frames that wait are drawn by `frames`, the streams that drain by `draining`.

use std::ops::Range;

use crate::call::{Call, Reply};
use crate::model::port::{BEST_EFFORT_STREAM, NOTHING};
use crate::timeline::bands::{Band, Scene};
use crate::timeline::look::{BESIDE_BOX, BESIDE_EPOCH, CROSSED, FAINT, HEADING_LINE, NAME, NONE, NOTE, RED, REFUSAL, SHADE, TICK};
use crate::timeline::svg::{Area, Letters, Point, Side, Svg, FOOT};
use crate::timeline::{draining, frames, headings, words};

/// Draws a band.
pub fn draw(svg: &mut Svg, scene: &Scene, band: &Band) {
    let (epochs, notes) = (headings::epochs(scene.events), draining::notes(scene.events));
    put_epochs(svg, band, &epochs);
    put_rows(svg, band);
    frames::put_bars(svg, scene, band);
    draining::put_bars(svg, scene, band);
    put_ticks(svg, scene, band);
    for event in band.events.clone() {
        put_event(svg, scene, band, event, &notes[event - 1]);
    }
    if band.carries {
        svg.text(band.heading(band.first_column(), 0), Side::Middle, NONE, "waiting");
    }
    frames::put_frames(svg, scene, band);
    draining::put_boxes(svg, scene, band);
}

/// The strip of the epochs, and a shade over every second one.
fn put_epochs(svg: &mut Svg, band: &Band, epochs: &[Option<usize>]) {
    let (mut first, last) = (band.first_column(), *band.events.end());
    while first <= last {
        let epoch = epochs[first - 1];
        let end = (first..=last).find(|&event| epochs[event - 1] != epoch).unwrap_or(last + 1);
        put_epoch(svg, band, first..end, epoch);
        first = end;
    }
}

/// One epoch, as far as it is in the band.
fn put_epoch(svg: &mut Svg, band: &Band, events: Range<usize>, epoch: Option<usize>) {
    let (left, top) = (band.column_at(events.start), band.epochs().top);
    if epoch.is_some_and(|epoch| epoch % 2 == 1) {
        let area = Area { left, top, width: band.column_at(events.end) - left, height: band.bottom() - top };
        svg.area(area, &format!("fill=\"{SHADE}\""));
    }
    svg.text(Point { x: left + BESIDE_EPOCH, y: top + HEADING_LINE + 1 }, Side::Right, NAME, &headings::epoch_name(epoch));
}

/// The rows with their names, and the columns' edges.
fn put_rows(svg: &mut Svg, band: &Band) {
    for x in band.events.clone().map(|event| band.column_at(event)) {
        svg.line(Point { x, y: band.link().top }, Point { x, y: band.bottom() }, &format!("stroke=\"{FAINT}\" stroke-dasharray=\"1 3\""));
    }
    put_row(svg, band.link(), "link", NAME);
    for (role, name) in words::ROLES.iter().enumerate() {
        put_row(svg, band.queue(role), name, NAME);
    }
    if band.drain_lanes > 0 {
        put_row(svg, band.draining(), draining::DRAINING, NAME);
    }
    if band.refuses {
        put_row(svg, band.refused(), "refused", Letters { colour: RED, ..NAME });
    }
}

/// A row with its name.
fn put_row(svg: &mut Svg, row: Area, name: &str, letters: Letters) {
    svg.titled(name, |svg| svg.area(row, &format!("fill=\"#ffffff\" fill-opacity=\"0\" stroke=\"{FAINT}\"")));
    svg.text(Point { x: row.left - BESIDE_BOX, y: row.middle().y + FOOT }, Side::Left, letters, name);
}

/// The ticks that are granted, a strong line each, from the epochs' strip down.
fn put_ticks(svg: &mut Svg, scene: &Scene, band: &Band) {
    let ticks = band.events.clone().filter(|event| headings::is_tick(&scene.events[event - 1]));
    for x in ticks.map(|event| band.column_at(event)) {
        svg.line(Point { x, y: band.epochs().top }, Point { x, y: band.bottom() }, TICK);
    }
}

/// The heading of an event's column, what it sends, and what it refuses; a note stands behind the words that show when a pointer rests on it.
fn put_event(svg: &mut Svg, scene: &Scene, band: &Band, event: usize, note: &str) {
    let (call, reply) = &scene.events[event - 1];
    svg.titled(&(words::event(event, call, reply) + note), |svg| {
        svg.text(band.heading(event, 0), Side::Middle, NAME, &event.to_string());
        for (before, (line, letters)) in headings::lines(call, reply).into_iter().enumerate() {
            svg.text(band.heading(event, before + 1), Side::Middle, letters, &line);
        }
        match (call, reply.refusal) {
            (Call::Transmit, 0) => put_sent(svg, scene, band.two_lines(band.link(), event), reply),
            (_, 0) => {}
            (call, refusal) => put_refused(svg, band.two_lines(band.refused(), event), call, refusal),
        }
    });
}

/// What a transmit sends, as a box on the link, or "nothing".
fn put_sent(svg: &mut Svg, scene: &Scene, area: Area, reply: &Reply) {
    if reply.first == NOTHING {
        return svg.text_in(area, NONE, "nothing");
    }
    svg.area(area, &frames::look(scene.palette, reply.first));
    let [stream, tag] = sent_words(reply.first, reply.second);
    put_two_lines(svg, area, (&stream, NOTE), (&tag, NOTE));
}

/// Two lines in a box.
fn put_two_lines(svg: &mut Svg, area: Area, upper: (&str, Letters), lower: (&str, Letters)) {
    let half = Area { top: area.top + 2, height: area.height / 2 - 2, ..area };
    svg.text_in(half, upper.1, upper.0);
    svg.text_in(Area { top: half.bottom(), ..half }, lower.1, lower.0);
}

/// What a box on the link says.
pub fn sent_words(stream: u32, tag: u32) -> [String; 2] {
    let stream = if stream == BEST_EFFORT_STREAM { String::from(words::BEST_EFFORT) } else { format!("stream {stream}") };
    [stream, format!("tag {tag}")]
}

/// What is refused, in a red box that is crossed out: the frame, if the call brings one, or the call, and the number.
fn put_refused(svg: &mut Svg, area: Area, call: &Call, refusal: u8) {
    put_crossed(svg, area);
    put_two_lines(svg, area, (&refused_words(call), CROSSED), (&refusal.to_string(), REFUSAL));
}

/// A red box that is crossed out.
pub fn put_crossed(svg: &mut Svg, area: Area) {
    let Area { left, top, .. } = area;
    svg.area(area, &format!("fill=\"#ffffff\" stroke=\"{RED}\" stroke-width=\"2\""));
    let cross = format!("stroke=\"{RED}\" stroke-opacity=\"0.3\" stroke-width=\"1.5\"");
    svg.line(Point { x: left, y: top }, Point { x: area.right(), y: area.bottom() }, &cross);
    svg.line(Point { x: left, y: area.bottom() }, Point { x: area.right(), y: top }, &cross);
}

/// What the box of a refused call says beside the number: stream and tag of a frame, where any octet may be the stream, or the call's name.
pub fn refused_words(call: &Call) -> String {
    match call {
        Call::Arrive { stream, tag, .. } => format!("{stream}: {tag}"),
        Call::BestEffort { tag, .. } => tag.to_string(),
        other => String::from(headings::asked(other).0),
    }
}
