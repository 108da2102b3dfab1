//! The whole picture: a title, the ports one below the other, each in its bands, and the legend.

use std::ops::RangeInclusive;

use crate::call::{Call, Reply};
use crate::model::port::NOTHING;
use crate::timeline::bands::{self, Band, Scene};
use crate::timeline::draining::{self, Drain};
use crate::timeline::drawing;
use crate::timeline::following::{self, Came, Stay};
use crate::timeline::legend::{self, Marks};
use crate::timeline::look::{
    width, wrapped, Palette, BESIDE_BOX, BESIDE_EPOCH, BETWEEN, IN_BOX, IN_COLUMN, LABEL, MARGIN, NAME, NARROWEST, NOTE, PORT, TITLE,
    WIDEST,
};
use crate::timeline::svg::{Letters, Point, Side, Svg};
use crate::timeline::{frames, headings, words, TooMany, MOST};

/// The events of a port that are shown, by their numbers, and all that it had from its first on, with their replies.
#[derive(Clone, Debug)]
pub struct Part<'a> {
    pub port: usize,
    pub events: &'a [(Call, Reply)],
    pub shown: RangeInclusive<usize>,
}

/// A picture that is being drawn.
struct Page {
    svg: Svg,
    palette: Palette,
    marks: Marks,
    /// Where what comes next begins.
    top: i32,
    width: i32,
}

/// The picture of several ports.
pub fn picture(parts: &[Part], title: &str) -> Result<String, TooMany> {
    let stays: Vec<Vec<Stay>> = parts.iter().map(|part| following::stays(part.events, &[*part.shown.start()])).collect();
    let mut page = Page { svg: Svg::default(), palette: Palette::default(), marks: Marks::default(), top: MARGIN, width: NARROWEST };
    let drains: Vec<Vec<Drain>> = parts.iter().map(|part| draining::drains(part.events, &[*part.shown.start()])).collect();
    stays.iter().flatten().for_each(|stay| page.palette.meet(stay.frame.stream));
    drains.iter().flatten().for_each(|drain| page.palette.meet(drain.stream.into()));
    wrapped(title, TITLE, WIDEST - 2 * MARGIN).iter().for_each(|line| page.put_line(line, TITLE));
    for ((part, stays), drains) in parts.iter().zip(&stays).zip(&drains) {
        part.fits(stays)?;
        page.put_part(part, stays, drains);
    }
    if parts.is_empty() {
        page.put_line("no events", PORT);
    }
    Ok(page.ended(title))
}

impl Part<'_> {
    /// Whether a picture has room for the events that are shown, and for the frames that wait meanwhile.
    fn fits(&self, stays: &[Stay]) -> Result<(), TooMany> {
        let Part { port, ref shown, .. } = *self;
        if shown.clone().count() > MOST {
            return Err(TooMany::Events { port, shown: shown.clone() });
        }
        match stays.iter().find(|stay| stay.lane >= MOST && shown.contains(&stay.from)) {
            None => Ok(()),
            Some(stay) => Err(TooMany::Frames { port, event: stay.from, role: words::ROLES[stay.role] }),
        }
    }

    /// The events that are shown.
    fn shown_events(&self) -> &[(Call, Reply)] {
        &self.events[self.shown.start() - 1..*self.shown.end()]
    }

    /// The numbers of the ticks that are shown.
    fn ticks(&self) -> Vec<usize> {
        self.shown.clone().filter(|event| headings::is_tick(&self.events[event - 1])).collect()
    }

    /// How wide a column must be for all that stands in one.
    fn column(&self, stays: &[Stay], drains: &[Drain]) -> i32 {
        let boxes = stays.iter().filter(|stay| self.shown.contains(&stay.from)).map(|stay| frames::label(&stay.frame));
        let drains = drains.iter().filter(|drain| self.shown.contains(&drain.from)).map(draining::label);
        let boxes = boxes.chain(drains).map(|label| width(&label, LABEL) + 2 * (BESIDE_BOX + IN_BOX));
        let others = self.shown_events().iter().flat_map(|(call, reply)| texts(call, reply));
        let others = others.map(|(text, letters)| width(&text, letters) + 2 * IN_COLUMN);
        let epochs = headings::epochs(self.events);
        let epochs = self.shown.clone().map(|event| width(&headings::epoch_name(epochs[event - 1]), NAME) + 2 * BESIDE_EPOCH);
        boxes.chain(others).chain(epochs).fold(0, i32::max)
    }

    /// The heading of the port.
    fn heading(&self) -> String {
        let Part { port, events, shown } = self;
        let (first, last, all) = (shown.start(), shown.end(), events.len());
        match shown.clone().count() {
            0 => format!("port {port}, no events"),
            count if count == all => format!("port {port}, events {first} to {last}"),
            _ => format!("port {port}, events {first} to {last} of {all}"),
        }
    }
}

/// The texts that stand in an event's column beside the boxes of waiting frames.
fn texts(call: &Call, reply: &Reply) -> Vec<(String, Letters)> {
    let mut texts = headings::lines(call, reply);
    match call {
        _ if reply.refusal != 0 => texts.push((drawing::refused_words(call), LABEL)),
        Call::Transmit if reply.first != NOTHING => texts.extend(drawing::sent_words(reply.first, reply.second).map(|text| (text, NOTE))),
        _ => {}
    }
    texts
}

impl Page {
    /// A line of text.
    fn put_line(&mut self, line: &str, letters: Letters) {
        self.top += letters.size + 4;
        self.svg.text(Point { x: MARGIN, y: self.top }, Side::Right, letters, line);
        self.top += letters.size / 2;
        self.width = self.width.max(width(line, letters) + 2 * MARGIN);
    }

    /// A port: its heading, and its bands. Stays and drains are those without a band that begins after the first.
    fn put_part(&mut self, part: &Part, stays: &[Stay], drains: &[Drain]) {
        self.put_line(&part.heading(), PORT);
        if part.shown.is_empty() {
            return;
        }
        let column = part.column(stays, drains);
        let carries = stays.iter().any(|stay| stay.came == Came::Carried) || drains.iter().any(|drain| drain.carried);
        let split = bands::split(&part.shown, carries, column, &part.ticks());
        let begins: Vec<usize> = split.iter().map(|events| *events.start()).collect();
        let (stays, drains) = (following::stays(part.events, &begins), draining::drains(part.events, &begins));
        self.mark(part, &stays, &drains);
        let lines = part.shown_events().iter().map(|(call, reply)| headings::lines(call, reply).len()).fold(0, usize::max) + 1;
        let scene = Scene { events: part.events, stays: &stays, drains: &drains, palette: &self.palette, lines, column };
        for events in split {
            let band = Band::new(&scene, events, self.top);
            drawing::draw(&mut self.svg, &scene, &band);
            self.top = band.bottom() + BETWEEN;
            self.width = self.width.max(band.right() + MARGIN);
        }
    }

    /// Marks what is shown of a port for the legend.
    fn mark(&mut self, part: &Part, stays: &[Stay], drains: &[Drain]) {
        part.shown_events().iter().for_each(|(call, reply)| self.marks.add_event(call, reply));
        let shown = stays.iter().filter(|stay| part.shown.contains(&stay.from));
        shown.for_each(|stay| self.marks.add_stay(stay, part.shown.contains(&stay.to)));
        drains.iter().filter(|drain| part.shown.contains(&drain.from)).for_each(|drain| self.marks.add_drain(drain));
    }

    /// The file, once the legend stands below the ports.
    fn ended(mut self, title: &str) -> String {
        let bottom = legend::draw(&mut self.svg, &self.palette, &self.marks, self.top, self.width - MARGIN);
        self.svg.file(self.width, bottom + MARGIN, if title.is_empty() { "timeline" } else { title })
    }
}
