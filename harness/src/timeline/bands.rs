//! Where everything of a port stands in the picture. Each event has a column. The columns stand in bands, one below the other like lines of music; a
//! band has the strip of the epochs, the headings of its columns, and a row for the link, for each queue's role, for the withdrawn streams, if one
//! drains, and for what is refused, if anything is. Where frames wait or streams drain as a band begins, it has a column more, in which they stand
//! again.

use std::array;
use std::ops::RangeInclusive;

use crate::call::{Call, Reply};
use crate::model::port::QUEUES;
use crate::timeline::draining::Drain;
use crate::timeline::following::{Came, Stay};
use crate::timeline::look::{
    Palette, ABOVE_LANES, BESIDE_BOX, BESIDE_SENT, BOX, EPOCHS, HEADING_LINE, LANE, MARGIN, NAMES, TWO_LINES, WIDEST,
};
use crate::timeline::svg::{Area, Point};

/// One band.
#[derive(Clone, Debug, PartialEq, Eq)]
pub struct Band {
    /// The numbers of its events.
    pub events: RangeInclusive<usize>,
    /// Whether frames wait or streams drain as it begins.
    pub carries: bool,
    /// Whether one of its events is refused.
    pub refuses: bool,
    /// How many lanes each role has.
    lanes: [usize; QUEUES],
    /// How many lanes the withdrawn streams have; none where no stream drains.
    pub drain_lanes: usize,
    /// How many lines its headings have.
    lines: usize,
    /// The width of a column.
    column: i32,
    /// Where it begins.
    top: i32,
}

/// The events of a port, what is known of them, and what all bands share.
pub struct Scene<'a> {
    pub events: &'a [(Call, Reply)],
    pub stays: &'a [Stay],
    pub drains: &'a [Drain],
    pub palette: &'a Palette,
    /// How many lines the headings have.
    pub lines: usize,
    /// The width of a column.
    pub column: i32,
}

/// How far a band's end may be from where it would be if all bands were alike, so that the next one can begin with a tick.
const ASIDE: usize = 2;

/// The events of each band: as few bands as there can be, about as many events in each, and where it can be, a tick first.
pub fn split(shown: &RangeInclusive<usize>, carries: bool, column: i32, ticks: &[usize]) -> Vec<RangeInclusive<usize>> {
    let most = ((WIDEST - 2 * MARGIN - NAMES) / column) as usize;
    let (mut first, last) = (*shown.start(), *shown.end());
    if last + 1 - first + usize::from(carries) <= most {
        return vec![shown.clone()];
    }
    let mut bands = Vec::new();
    while first <= last {
        let next = first + length(first, last, most - 1, ticks);
        bands.push(first..=next - 1);
        first = next;
    }
    bands
}

/// How many of the events from the first to the last stand in the first band, where a band has room for the most.
fn length(first: usize, last: usize, most: usize, ticks: &[usize]) -> usize {
    let count = last + 1 - first;
    let bands = count.div_ceil(most);
    let alike = count.div_ceil(bands);
    let least = (count.saturating_sub((bands - 1) * most)).max(alike.saturating_sub(ASIDE)).max(1);
    let before_tick = (least..=most.min(alike + ASIDE)).filter(|length| ticks.contains(&(first + length)));
    before_tick.min_by_key(|length| length.abs_diff(alike)).unwrap_or(alike)
}

impl Band {
    /// The band of some events, from where it begins.
    pub fn new(scene: &Scene, events: RangeInclusive<usize>, top: i32) -> Band {
        let stays = || scene.stays.iter().filter(|stay| events.contains(&stay.from));
        let drains = || scene.drains.iter().filter(|drain| events.contains(&drain.from));
        let carries = stays().any(|stay| stay.came == Came::Carried) || drains().any(|drain| drain.carried);
        let refuses = scene.events[events.start() - 1..*events.end()].iter().any(|(_, reply)| reply.refusal != 0);
        let lanes = array::from_fn(|role| stays().filter(|stay| stay.role == role).map(|stay| stay.lane + 1).fold(1, usize::max));
        let drain_lanes = drains().map(|drain| drain.lane + 1).fold(0, usize::max);
        Band { events, carries, refuses, lanes, drain_lanes, lines: scene.lines, column: scene.column, top }
    }

    /// The stays that are in the band, in which they then begin.
    pub fn stays<'a>(&'a self, scene: &'a Scene) -> impl Iterator<Item = &'a Stay> {
        scene.stays.iter().filter(|stay| self.events.contains(&stay.from))
    }

    /// The withdrawn streams that are in the band, in which they then begin.
    pub fn drains<'a>(&'a self, scene: &'a Scene) -> impl Iterator<Item = &'a Drain> {
        scene.drains.iter().filter(|drain| self.events.contains(&drain.from))
    }

    /// Where the columns begin, that of the frames which wait as the band begins among them.
    pub fn left(&self) -> i32 {
        MARGIN + NAMES
    }

    /// Where the columns end.
    pub fn right(&self) -> i32 {
        self.column_at(*self.events.end() + 1)
    }

    /// The number of the first column: that of the first event, or the one before where frames stand again.
    pub fn first_column(&self) -> usize {
        self.events.start() - usize::from(self.carries)
    }

    /// Where the column of an event begins; of the number before the first, where frames stand again.
    pub fn column_at(&self, event: usize) -> i32 {
        self.left() + (event - self.first_column()) as i32 * self.column
    }

    /// The middle of an event's column.
    pub fn middle_of(&self, event: usize) -> i32 {
        self.column_at(event) + self.column / 2
    }

    /// The strip of the epochs.
    pub fn epochs(&self) -> Area {
        self.row(self.top, EPOCHS)
    }

    /// The foot of a line of an event's heading, the number's being line 0.
    pub fn heading(&self, event: usize, line: usize) -> Point {
        Point { x: self.middle_of(event), y: self.epochs().bottom() + HEADING_LINE * (line as i32 + 1) }
    }

    /// The row of the link.
    pub fn link(&self) -> Area {
        self.row(self.epochs().bottom() + HEADING_LINE * self.lines as i32 + HEADING_LINE / 2, TWO_LINES)
    }

    /// The row of a queue's role.
    pub fn queue(&self, role: usize) -> Area {
        let heights: [i32; QUEUES] = array::from_fn(|role| self.lanes[role] as i32 * LANE + 2 * ABOVE_LANES);
        self.row(self.link().bottom() + heights[..role].iter().sum::<i32>(), heights[role])
    }

    /// The row of the withdrawn streams, without a height where none drains.
    pub fn draining(&self) -> Area {
        let height = if self.drain_lanes > 0 { self.drain_lanes as i32 * LANE + 2 * ABOVE_LANES } else { 0 };
        self.row(self.queue(QUEUES - 1).bottom(), height)
    }

    /// The row of what is refused.
    pub fn refused(&self) -> Area {
        self.row(self.draining().bottom(), TWO_LINES)
    }

    /// Where the band ends below.
    pub fn bottom(&self) -> i32 {
        if self.refuses {
            self.refused().bottom()
        } else {
            self.draining().bottom()
        }
    }

    /// The box of a frame in a stay: in the column of the event by which it came, or where it stands again.
    pub fn frame(&self, stay: &Stay) -> Area {
        self.boxed(stay.from, stay.came == Came::Carried, self.lane(stay))
    }

    /// The box of a withdrawn stream: in the column of the withdrawal or tick, or where it stands again.
    pub fn drain(&self, drain: &Drain) -> Area {
        self.boxed(drain.from, drain.carried, self.lane_in(self.draining(), drain.lane))
    }

    /// A box in an event's column, or in the one before where something stands again, with its middle at a height.
    fn boxed(&self, event: usize, again: bool, middle: i32) -> Area {
        let left = self.column_at(event - usize::from(again)) + BESIDE_BOX;
        Area { left, top: middle - BOX / 2, width: self.column - 2 * BESIDE_BOX, height: BOX }
    }

    /// The middle of a stay's lane.
    pub fn lane(&self, stay: &Stay) -> i32 {
        self.lane_in(self.queue(stay.role), stay.lane)
    }

    /// The middle of a lane of a row.
    fn lane_in(&self, row: Area, lane: usize) -> i32 {
        row.top + ABOVE_LANES + LANE * lane as i32 + LANE / 2
    }

    /// The box of two lines in a row and an event's column.
    pub fn two_lines(&self, row: Area, event: usize) -> Area {
        let left = self.column_at(event) + BESIDE_SENT;
        Area { left, top: row.top + ABOVE_LANES, width: self.column - 2 * BESIDE_SENT, height: TWO_LINES - 2 * ABOVE_LANES }
    }

    /// A row over all columns.
    fn row(&self, top: i32, height: i32) -> Area {
        Area { left: self.left(), top, width: self.right() - self.left(), height }
    }
}
