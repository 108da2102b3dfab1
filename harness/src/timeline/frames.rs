//! Draws the frames that wait: a box where a frame joins a queue, a pale bar while it waits there, a way over each tick to the box in the next row,
//! a way up to the link where it is sent, and a cross where it is purged.

use crate::model::port::{Frame, BEST_EFFORT_STREAM};
use crate::timeline::bands::{Band, Scene};
use crate::timeline::following::{Stay, Went};
use crate::timeline::look::{Palette, BAR, BESIDE_BOX, LABEL, RED};
use crate::timeline::svg::{Area, Point, Svg};
use crate::timeline::words;

/// What a frame's box says: stream and tag; of a best-effort frame the tag alone.
pub fn label(frame: &Frame) -> String {
    match frame.stream {
        BEST_EFFORT_STREAM => frame.tag.to_string(),
        stream => format!("{stream}: {}", frame.tag),
    }
}

/// How a frame's box looks: in the colours of its stream, of best effort with a broken edge.
pub fn look(palette: &Palette, stream: u32) -> String {
    let colours = palette.of(stream);
    let edge = if stream == BEST_EFFORT_STREAM { " stroke-dasharray=\"4 2\"" } else { "" };
    format!("rx=\"3\" fill=\"{}\" stroke=\"{}\" stroke-width=\"1.4\"{edge}", colours.pale, colours.dark)
}

/// What is told of a stay.
fn told(stay: &Stay) -> String {
    let Stay { frame: Frame { stream, charge, tag }, role, since, to, .. } = *stay;
    let sort = if stream == BEST_EFFORT_STREAM { String::from(words::BEST_EFFORT) } else { format!("stream {stream}") };
    let went = match stay.went {
        Went::Sent => format!(", sent at event {to}"),
        Went::Moved => format!(", moved on by the tick at event {to}"),
        Went::Purged => format!(", purged by the tick at event {to}"),
        Went::Carried => String::new(),
        Went::Not => String::from(", still waiting after the last event"),
    };
    format!("{sort}, charge {charge}, tag {tag}: in {} since event {since}{went}", words::ROLES[role])
}

/// The bars of the frames that wait.
pub fn put_bars(svg: &mut Svg, scene: &Scene, band: &Band) {
    for stay in band.stays(scene) {
        let from = band.frame(stay).middle();
        svg.titled(&told(stay), |svg| put_bar(svg, scene.palette, stay.frame.stream, from, end(band, stay)));
    }
}

/// The bar of a frame that waits, from a point to the right.
pub fn put_bar(svg: &mut Svg, palette: &Palette, stream: u32, from: Point, right: i32) {
    let area = Area { left: from.x, top: from.y - BAR / 2, width: right - from.x, height: BAR };
    svg.area(area, &format!("fill=\"{}\"", palette.of(stream).pale));
}

/// Where the bar of a stay ends.
fn end(band: &Band, stay: &Stay) -> i32 {
    match stay.went {
        _ if stay.to > *band.events.end() => band.right(),
        Went::Sent => band.middle_of(stay.to),
        Went::Moved => band.column_at(stay.to) - BESIDE_BOX,
        Went::Purged => band.column_at(stay.to),
        Went::Carried | Went::Not => band.right(),
    }
}

/// The ways, boxes and crosses of the frames that wait.
pub fn put_frames(svg: &mut Svg, scene: &Scene, band: &Band) {
    for stay in band.stays(scene) {
        put_way(svg, scene, band, stay);
    }
    for stay in band.stays(scene) {
        svg.titled(&told(stay), |svg| put_box(svg, scene.palette, band.frame(stay), &stay.frame));
    }
}

/// A frame's box.
pub fn put_box(svg: &mut Svg, palette: &Palette, area: Area, frame: &Frame) {
    svg.area(area, &look(palette, frame.stream));
    svg.text_in(area, LABEL, &label(frame));
}

/// How a frame leaves, if it does in the band.
fn put_way(svg: &mut Svg, scene: &Scene, band: &Band, stay: &Stay) {
    if !band.events.contains(&stay.to) {
        return;
    }
    let look = format!("stroke=\"{}\" stroke-width=\"1.3\"", scene.palette.of(stay.frame.stream).dark);
    let from = Point { x: end(band, stay), y: band.lane(stay) };
    match stay.went {
        Went::Sent => {
            svg.line(from, Point { x: from.x, y: band.two_lines(band.link(), stay.to).bottom() }, &look);
            svg.disc(from, 3, &format!("fill=\"{}\"", scene.palette.of(stay.frame.stream).dark));
        }
        Went::Moved => {
            let moved = Stay { role: stay.role - 1, ..stay.clone() };
            svg.line(from, Point { x: band.column_at(stay.to) + BESIDE_BOX, y: band.lane(&moved) }, &look);
        }
        Went::Purged => put_purged(svg, from),
        Went::Carried | Went::Not => {}
    }
}

/// A red cross on a disc, where a frame is purged.
pub fn put_purged(svg: &mut Svg, middle: Point) {
    let Point { x, y } = middle;
    svg.disc(middle, 7, &format!("fill=\"#ffffff\" stroke=\"{RED}\" stroke-width=\"2\""));
    let cross = format!("stroke=\"{RED}\" stroke-width=\"2\"");
    svg.line(Point { x: x - 3, y: y - 3 }, Point { x: x + 3, y: y + 3 }, &cross);
    svg.line(Point { x: x - 3, y: y + 3 }, Point { x: x + 3, y: y - 3 }, &cross);
}
