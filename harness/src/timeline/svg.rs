//! The text of an SVG file, element by element: lines, boxes, curves and texts, and titles that show when a pointer rests on what they belong to.

use std::fmt::Write;

/// How far the foot of a text is below its middle, in pixels.
pub const FOOT: i32 = 4;

/// A place in the picture, in pixels from its left upper corner.
#[derive(Clone, Copy, Debug, PartialEq, Eq)]
pub struct Point {
    pub x: i32,
    pub y: i32,
}

/// An upright box.
#[derive(Clone, Copy, Debug, PartialEq, Eq)]
pub struct Area {
    pub left: i32,
    pub top: i32,
    pub width: i32,
    pub height: i32,
}

/// Where a text stands beside its point.
#[derive(Clone, Copy, Debug, PartialEq, Eq)]
pub enum Side {
    /// The text begins there.
    Right,
    /// Its middle is there.
    Middle,
    /// It ends there.
    Left,
}

/// How a text looks.
#[derive(Clone, Copy, Debug, PartialEq, Eq)]
pub struct Letters {
    /// The size in pixels.
    pub size: i32,
    pub bold: bool,
    pub colour: &'static str,
    /// Whether a white edge keeps them clear of lines behind.
    pub edge: bool,
}

/// The elements so far.
#[derive(Default)]
pub struct Svg {
    elements: String,
}

impl Area {
    /// The point in the middle.
    pub fn middle(&self) -> Point {
        Point { x: self.left + self.width / 2, y: self.top + self.height / 2 }
    }

    /// Where the box ends on the right.
    pub fn right(&self) -> i32 {
        self.left + self.width
    }

    /// Where the box ends below.
    pub fn bottom(&self) -> i32 {
        self.top + self.height
    }
}

impl Svg {
    /// Adds a line of the file.
    fn put(&mut self, line: &str) {
        self.elements.push_str(line);
        self.elements.push('\n');
    }

    /// Draws what belongs together, with a title for all of it.
    pub fn titled(&mut self, title: &str, draw: impl FnOnce(&mut Svg)) {
        self.put(&format!("<g><title>{}</title>", escaped(title)));
        draw(self);
        self.put("</g>");
    }

    /// A box, its look in attributes.
    pub fn area(&mut self, area: Area, look: &str) {
        let Area { left, top, width, height } = area;
        self.put(&format!("<rect x=\"{left}\" y=\"{top}\" width=\"{width}\" height=\"{height}\" {look}/>"));
    }

    /// A straight line, its look in attributes.
    pub fn line(&mut self, from: Point, to: Point, look: &str) {
        self.put(&format!("<line x1=\"{}\" y1=\"{}\" x2=\"{}\" y2=\"{}\" {look}/>", from.x, from.y, to.x, to.y));
    }

    /// A disc, its look in attributes.
    pub fn disc(&mut self, middle: Point, radius: i32, look: &str) {
        self.put(&format!("<circle cx=\"{}\" cy=\"{}\" r=\"{radius}\" {look}/>", middle.x, middle.y));
    }

    /// A text on one line; the point is at its foot.
    pub fn text(&mut self, at: Point, side: Side, letters: Letters, text: &str) {
        let anchor = match side {
            Side::Right => "",
            Side::Middle => " text-anchor=\"middle\"",
            Side::Left => " text-anchor=\"end\"",
        };
        let weight = if letters.bold { " font-weight=\"bold\"" } else { "" };
        let edge = if letters.edge { " stroke=\"#ffffff\" stroke-width=\"3\" paint-order=\"stroke\"" } else { "" };
        let look = format!("font-size=\"{}\"{weight} fill=\"{}\"{edge}{anchor}", letters.size, letters.colour);
        self.put(&format!("<text x=\"{}\" y=\"{}\" {look}>{}</text>", at.x, at.y, escaped(text)));
    }

    /// A text on one line in the middle of a box.
    pub fn text_in(&mut self, area: Area, letters: Letters, text: &str) {
        let Point { x, y } = area.middle();
        self.text(Point { x, y: y + FOOT }, Side::Middle, letters, text);
    }

    /// The whole file, of a picture with a width and a height, on white, with a title.
    pub fn file(&self, width: i32, height: i32, title: &str) -> String {
        let size = format!("width=\"{width}\" height=\"{height}\" viewBox=\"0 0 {width} {height}\"");
        let mut file = format!("<svg xmlns=\"http://www.w3.org/2000/svg\" {size} font-family=\"sans-serif\" role=\"img\">\n");
        writeln!(file, "<title>{}</title>", escaped(title)).expect("a string takes every line");
        writeln!(file, "<rect width=\"{width}\" height=\"{height}\" fill=\"#ffffff\"/>").expect("a string takes every line");
        file + &self.elements + "</svg>\n"
    }
}

/// A text as XML has it; a character that XML has not is replaced.
fn escaped(text: &str) -> String {
    let mut escaped = String::new();
    for character in text.chars() {
        match character {
            '&' => escaped.push_str("&amp;"),
            '<' => escaped.push_str("&lt;"),
            '>' => escaped.push_str("&gt;"),
            '"' => escaped.push_str("&quot;"),
            '\u{fffe}' | '\u{ffff}' => escaped.push(char::REPLACEMENT_CHARACTER),
            character if character.is_control() => escaped.push(char::REPLACEMENT_CHARACTER),
            character => escaped.push(character),
        }
    }
    escaped
}
