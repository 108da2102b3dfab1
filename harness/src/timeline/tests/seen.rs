//! What a reader sees in a picture, found from where its elements stand and not from how they were made: a row is known by its name, a column by its
//! heading, a bar by the box at which it begins, a line by the bar at whose end it begins.

use std::ptr;

use super::xml::{elements, Element};
use crate::timeline::draining::DRAINING;
use crate::timeline::look::{RED, SHADE};
use crate::timeline::words::ROLES;

/// The width of a tick.
pub const STRONG: &str = "3";
/// The size of an event's number.
const NUMBER: &str = "12";
/// How far a middle may be from another by rounding.
const ROUNDED: i32 = 1;

/// The elements of a picture, and what they are seen to be.
pub struct Seen {
    pub elements: Vec<Element>,
    rows: Vec<Row>,
    headings: Vec<Heading>,
    bars: Vec<Bar>,
}

/// Where something stands.
#[derive(Clone, Copy, Debug, PartialEq, Eq)]
struct Place {
    x: i32,
    y: i32,
}

/// A row of a band.
struct Row {
    name: String,
    top: i32,
    bottom: i32,
}

/// The heading of a column: the event's number, or the event before which frames wait.
struct Heading {
    what: String,
    at: Place,
}

/// A frame that waits: its box's label, and from where to where its bar reaches.
struct Bar {
    label: String,
    left: i32,
    right: i32,
    y: i32,
}

/// The middle of a box.
fn middle(area: &Element) -> Place {
    Place { x: area.number("x") + area.number("width") / 2, y: area.number("y") + area.number("height") / 2 }
}

impl Seen {
    /// What is seen in a file that must be well-formed.
    pub fn of(file: &str) -> Seen {
        let elements = elements(file).unwrap_or_else(|wrong| panic!("{wrong}, in\n{file}"));
        let mut seen = Seen { elements, rows: Vec::new(), headings: Vec::new(), bars: Vec::new() };
        seen.rows = seen.found_rows();
        seen.headings = seen.found_headings();
        seen.bars = seen.found_bars();
        seen
    }

    /// The elements of a name.
    fn named<'a>(&'a self, name: &'a str) -> impl Iterator<Item = &'a Element> {
        self.elements.iter().filter(move |element| element.name == name)
    }

    /// The title under which an element stands.
    fn title_of(&self, element: &Element) -> &str {
        let is_title = |other: &&Element| other.name == "title" && other.within.last() == element.within.last();
        self.elements.iter().find(is_title).map_or("", |title| title.text.as_str())
    }

    /// The rows, each with the name that shows when a pointer rests on it.
    fn found_rows(&self) -> Vec<Row> {
        let row = |area: &Element| {
            let top = area.number("y");
            Row { name: String::from(self.title_of(area)), top, bottom: top + area.number("height") }
        };
        self.named("rect").filter(|area| area.attribute("fill-opacity").is_some()).map(row).collect()
    }

    /// The headings of columns.
    fn found_headings(&self) -> Vec<Heading> {
        let is_number = |text: &Element| text.text.parse::<usize>().is_ok() && text.attribute("font-size") == Some(NUMBER);
        let is_heading =
            |text: &&Element| text.text == "waiting" || is_number(text) && self.title_of(text).starts_with(&format!("{} ", text.text));
        let at = |text: &Element| Place { x: text.number("x"), y: text.number("y") };
        let mut headings: Vec<Heading> =
            self.named("text").filter(is_heading).map(|text| Heading { what: text.text.clone(), at: at(text) }).collect();
        headings.sort_by_key(|heading| (heading.at.y, heading.at.x));
        for place in 1..headings.len() {
            if headings[place - 1].what == "waiting" {
                headings[place - 1].what = format!("before {}", headings[place].what);
            }
        }
        headings
    }

    /// The bars of frames that wait in a row.
    fn found_bars(&self) -> Vec<Bar> {
        let is_bar = |area: &&Element| ["rx", "stroke", "fill-opacity"].iter().all(|name| area.attribute(name).is_none());
        let bars = self.named("rect").filter(is_bar).filter(|area| !matches!(area.attribute("fill"), Some(SHADE | "#ffffff")));
        bars.filter(|bar| self.row(middle(bar).y).is_some()).map(|bar| self.bar(bar)).collect()
    }

    /// A bar, with the label of the box at whose middle it begins.
    fn bar(&self, bar: &Element) -> Bar {
        let (left, y) = (bar.number("x"), middle(bar).y);
        let is_its_box = |area: &&Element| area.attribute("rx").is_some() && middle(area) == Place { x: left, y };
        let area = self.named("rect").find(is_its_box).unwrap_or_else(|| panic!("no box is where {bar:?} begins"));
        Bar { label: self.label(area), left, right: left + bar.number("width"), y }
    }

    /// The row in which a height is, if it is in one.
    fn row(&self, y: i32) -> Option<&str> {
        self.rows.iter().find(|row| (row.top..row.bottom).contains(&y)).map(|row| row.name.as_str())
    }

    /// The headings of the band in whose rows a height is.
    fn headings_above(&self, y: i32) -> impl Iterator<Item = &Heading> {
        let above = self.headings.iter().map(|heading| heading.at.y).filter(|&height| height < y).max();
        self.headings.iter().filter(move |heading| Some(heading.at.y) == above)
    }

    /// The column in whose middle a place is.
    fn column(&self, place: Place) -> Option<&str> {
        self.headings_above(place.y).find(|heading| (heading.at.x - place.x).abs() <= ROUNDED).map(|heading| heading.what.as_str())
    }

    /// The first column that is to the right of a place.
    fn column_after(&self, place: Place) -> Option<&str> {
        self.headings_above(place.y).find(|heading| heading.at.x > place.x).map(|heading| heading.what.as_str())
    }

    /// The texts that stand in a box and come after it, with a space between them.
    fn label(&self, area: &Element) -> String {
        let place = self.elements.iter().position(|element| ptr::eq(element, area)).expect("the box is one of the elements");
        let after = self.elements[place + 1..].iter().take_while(|element| element.within == area.within && element.name != "rect");
        let texts: Vec<&str> = after.filter(|element| element.name == "text").map(|text| text.text.as_str()).collect();
        texts.join(" ")
    }

    /// Where a box is, its column, its row and its label, if it is in a row.
    fn boxed(&self, area: &Element) -> Option<String> {
        let place = middle(area);
        Some(format!("{} {} {}", self.column(place)?, self.row(place.y)?, self.label(area)))
    }

    /// The boxes of frames, each as its column, its row and its label, in the order in which they are drawn.
    pub fn boxes(&self) -> Vec<String> {
        self.named("rect").filter(|area| area.attribute("rx").is_some()).filter_map(|area| self.boxed(area)).collect()
    }

    /// How the boxes of frames look, each as its label, its fill and its edge.
    pub fn looks(&self) -> Vec<[String; 3]> {
        let is_box = |area: &&Element| area.attribute("rx").is_some() && self.row(middle(area).y).is_some();
        let look = |area: &Element, name| String::from(area.attribute(name).unwrap_or_default());
        self.named("rect").filter(is_box).map(|area| [self.label(area), look(area, "fill"), look(area, "stroke-dasharray")]).collect()
    }

    /// The boxes that are crossed out, each as its column, its row and its label.
    pub fn crossed(&self) -> Vec<String> {
        self.named("rect").filter(|area| area.attribute("stroke") == Some(RED)).filter_map(|area| self.boxed(area)).collect()
    }

    /// The words on the link that stand in no box, each with its column.
    pub fn nothing_sent(&self) -> Vec<String> {
        let place = |text: &Element| Place { x: text.number("x"), y: text.number("y") };
        let words = self.named("text").filter(|text| text.text == "nothing" && self.row(text.number("y")) == Some("link"));
        words.filter_map(|text| Some(format!("{} {}", self.column(place(text))?, text.text))).collect()
    }

    /// The bars, each as the row, the label of the box at which it begins, and the first and the last column whose middle it reaches.
    pub fn bars(&self) -> Vec<String> {
        self.bars.iter().map(|bar| self.told(bar)).collect()
    }

    /// A bar in words.
    fn told(&self, bar: &Bar) -> String {
        let reached = |heading: &&Heading| (bar.left - ROUNDED..=bar.right + ROUNDED).contains(&heading.at.x);
        let reached: Vec<&str> = self.headings_above(bar.y).filter(reached).map(|heading| heading.what.as_str()).collect();
        let (first, last) = (reached.first().expect("a bar begins in a column"), reached.last().expect("a bar begins in a column"));
        format!("{} {} from {first} to {last}", self.row(bar.y).expect("a bar is in a row"), bar.label)
    }

    /// The frame whose bar ends at a place.
    fn ended(&self, place: Place) -> Option<&str> {
        self.bars.iter().find(|bar| bar.y == place.y && bar.right == place.x).map(|bar| bar.label.as_str())
    }

    /// The ticks, each by the column that is the first to its right.
    pub fn ticks(&self) -> Vec<&str> {
        let is_tick = |line: &&Element| line.attribute("stroke-width") == Some(STRONG) && self.row(line.number("y2") - 1).is_some();
        let after = |line: &Element| self.column_after(Place { x: line.number("x1"), y: line.number("y2") });
        self.named("line").filter(is_tick).map(|line| after(line).expect("a column is after a tick")).collect()
    }

    /// The lines from the end of a bar: the frame, the row from which it goes, that to which it goes, and the column in which or before which it
    /// does.
    pub fn ways(&self) -> Vec<String> {
        self.named("line").filter_map(|line| self.way(line)).collect()
    }

    /// The line from the end of a bar, if it is one.
    fn way(&self, line: &Element) -> Option<String> {
        let from = Place { x: line.number("x1"), y: line.number("y1") };
        let to = Place { x: line.number("x2"), y: line.number("y2") };
        let (label, left, right) = (self.ended(from)?, self.row(from.y)?, self.row(to.y)?);
        let column = if from.x == to.x { self.column(from) } else { self.column_after(from) };
        Some(format!("{label} from {left} to {right} at {}", column?))
    }

    /// The marks of purges: the frame, the row, and the column of the tick.
    pub fn purges(&self) -> Vec<String> {
        self.named("circle").filter(|disc| disc.attribute("stroke") == Some(RED)).filter_map(|disc| self.purge(disc)).collect()
    }

    /// The mark of a purge, if it is in a row.
    fn purge(&self, disc: &Element) -> Option<String> {
        let place = Place { x: disc.number("cx"), y: disc.number("cy") };
        let (row, column) = (self.row(place.y)?, self.column_after(place)?);
        Some(format!("{} in {row} at {column}", self.ended(place)?))
    }

    /// The epochs, each with the first column that it is above.
    pub fn epochs(&self) -> Vec<String> {
        let is_epoch = |text: &&Element| text.text.starts_with("epoch ") || text.text == "closed";
        self.named("text").filter(is_epoch).map(|text| format!("{} from {}", text.text, self.first_below(text))).collect()
    }

    /// The first column that is below a text and to the right of where it begins.
    fn first_below(&self, text: &Element) -> &str {
        let below = self.headings.iter().map(|heading| heading.at.y).filter(|&height| height > text.number("y")).min();
        let is_first = |heading: &&Heading| Some(heading.at.y) == below && heading.at.x > text.number("x");
        self.headings.iter().find(is_first).map(|heading| heading.what.as_str()).expect("a column is below an epoch")
    }

    /// The bands, each as the headings of its columns.
    pub fn bands(&self) -> Vec<Vec<&str>> {
        let parts = self.headings.chunk_by(|one, other| one.at.y == other.at.y);
        parts.map(|part| part.iter().map(|heading| heading.what.as_str()).collect()).collect()
    }

    /// The names of the rows, from above.
    pub fn rows(&self) -> Vec<&str> {
        let is_name = |text: &&str| ROLES.contains(text) || ["link", "refused", DRAINING].contains(text);
        self.named("text")
            .filter(|text| text.attribute("text-anchor") == Some("end"))
            .map(|text| text.text.as_str())
            .filter(is_name)
            .collect()
    }

    /// What shows when a pointer rests on something, in the order in which it is drawn, without repeats.
    pub fn titles(&self) -> Vec<&str> {
        let mut titles: Vec<&str> = Vec::new();
        self.named("title").for_each(|title| {
            if !titles.contains(&title.text.as_str()) {
                titles.push(&title.text)
            }
        });
        titles
    }

    /// What the legend says: the texts below all rows.
    pub fn legend(&self) -> Vec<&str> {
        let bottom = self.rows.iter().map(|row| row.bottom).max().unwrap_or(0);
        self.named("text").filter(|text| text.number("y") > bottom).map(|text| text.text.as_str()).collect()
    }

    /// All texts.
    pub fn texts(&self) -> Vec<&str> {
        self.named("text").map(|text| text.text.as_str()).collect()
    }
}
