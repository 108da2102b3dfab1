//! How a picture looks: its sizes in pixels, its letters, its colours, and how wide a text is.

use crate::model::port::BEST_EFFORT_STREAM;
use crate::timeline::svg::Letters;

/// The widest that a picture is, so that it can be read on a page.
pub const WIDEST: i32 = 1_200;
/// The narrowest that a picture is, so that the legend can be read.
pub const NARROWEST: i32 = 640;
/// The room left free at all edges.
pub const MARGIN: i32 = 12;
/// The room of the rows' names.
pub const NAMES: i32 = 80;
/// The room between a column's edge and a box in it; ticks stand in it, and the lines of the frames that they move.
pub const BESIDE_BOX: i32 = 9;
/// The room between a column's edge and a box on the link.
pub const BESIDE_SENT: i32 = 3;
/// The room between a box's edge and its label.
pub const IN_BOX: i32 = 3;
/// The room between a column's edge and any text in it.
pub const IN_COLUMN: i32 = 4;
/// The room between a tick and the name of the epoch after it.
pub const BESIDE_EPOCH: i32 = 6;
/// The height of a lane.
pub const LANE: i32 = 22;
/// The height of a frame's box.
pub const BOX: i32 = 18;
/// The height of the bar of a frame that waits.
pub const BAR: i32 = 10;
/// The room above the first lane of a row and below the last.
pub const ABOVE_LANES: i32 = 3;
/// The height of the rows with two lines of text: the link, and what is refused.
pub const TWO_LINES: i32 = 38;
/// The height of the strip with the epochs' numbers.
pub const EPOCHS: i32 = 20;
/// From one line of a heading to the next.
pub const HEADING_LINE: i32 = 14;
/// The room between two bands, and around the legend.
pub const BETWEEN: i32 = 18;
/// From one line of the legend to the next.
pub const LEGEND_LINE: i32 = 23;
/// From one line to the next of what one mark means.
pub const LEGEND_WRAPPED: i32 = 16;

/// The colour of texts and of ticks.
pub const DARK: &str = "#1a1a1a";
/// The colour of thin lines, and of what matters less.
pub const FAINT: &str = "#d5d5d5";
/// The shade of every second epoch.
pub const SHADE: &str = "#f3f3f3";
/// The colour of words that matter less.
pub const QUIET: &str = "#555555";
/// The colour of what is refused or thrown away.
pub const RED: &str = "#b00020";

/// How a tick looks.
pub const TICK: &str = "stroke=\"#1a1a1a\" stroke-width=\"3\"";

/// The picture's title.
pub const TITLE: Letters = Letters { size: 17, bold: true, colour: DARK, edge: false };
/// The heading of a port.
pub const PORT: Letters = Letters { size: 14, bold: true, colour: DARK, edge: false };
/// The names of rows, the numbers of epochs and of events.
pub const NAME: Letters = Letters { size: 12, bold: true, colour: DARK, edge: false };
/// The words of headings, and of boxes on the link.
pub const NOTE: Letters = Letters { size: 11, bold: false, colour: DARK, edge: false };
/// What is said of refused events and of purges.
pub const WARNING: Letters = Letters { size: 11, bold: true, colour: RED, edge: false };
/// What stands in a box that is crossed out.
pub const CROSSED: Letters = Letters { edge: true, ..LABEL };
/// The number of a refusal in such a box.
pub const REFUSAL: Letters = Letters { edge: true, ..WARNING };
/// What a frame's box says, and the legend.
pub const LABEL: Letters = Letters { size: 12, bold: false, colour: DARK, edge: false };
/// What a transmit says that sends nothing.
pub const NONE: Letters = Letters { size: 11, bold: false, colour: QUIET, edge: false };

/// A pale colour to fill with, and a dark one of the same hue to draw with.
#[derive(Clone, Copy, Debug, PartialEq, Eq)]
pub struct Colours {
    pub pale: &'static str,
    pub dark: &'static str,
}

/// The colours of the streams, in the order in which they are met; beyond the last it starts over.
const STREAMS: [Colours; 8] = [
    Colours { pale: "#d3e3f5", dark: "#2b5a91" },
    Colours { pale: "#fbe2c3", dark: "#95590b" },
    Colours { pale: "#d5ecd0", dark: "#35702e" },
    Colours { pale: "#e6dbf2", dark: "#66458f" },
    Colours { pale: "#f7d8e1", dark: "#97355a" },
    Colours { pale: "#cdeae7", dark: "#1b6a66" },
    Colours { pale: "#eeecbf", dark: "#6a6615" },
    Colours { pale: "#e5dcd3", dark: "#65523f" },
];
/// The colours of best effort.
const BEST_EFFORT: Colours = Colours { pale: "#dedede", dark: "#4d4d4d" };

/// The streams of a picture, in the order in which they are met.
#[derive(Clone, Debug, Default)]
pub struct Palette {
    met: Vec<u32>,
}

impl Palette {
    /// Meets a stream.
    pub fn meet(&mut self, stream: u32) {
        if stream != BEST_EFFORT_STREAM && !self.met.contains(&stream) {
            self.met.push(stream);
        }
    }

    /// The colours of a stream that was met.
    pub fn of(&self, stream: u32) -> Colours {
        let place = self.met.iter().position(|&met| met == stream);
        place.map_or(BEST_EFFORT, |place| STREAMS[place % STREAMS.len()])
    }
}

/// How wide a text is at most, in a wide one of the usual fonts without serifs.
pub fn width(text: &str, letters: Letters) -> i32 {
    let hundredths: i32 = text.chars().map(hundredths).sum();
    let bold = if letters.bold { 113 } else { 100 };
    (hundredths * letters.size * bold + 9_999) / 10_000
}

/// How wide a character is, in hundredths of the size.
fn hundredths(character: char) -> i32 {
    match character {
        'i' | 'j' | 'l' | ' ' | '.' | ',' | ':' | '\'' => 34,
        'f' | 'r' | 't' | '(' | ')' | '-' => 42,
        'c' | 'k' | 's' | 'v' | 'x' | 'y' | 'z' => 59,
        'm' | 'w' | 'M' | 'W' | '#' | '%' | '&' | '+' | '<' | '=' | '>' | '@' | '^' | '~' => 100,
        'A'..='Z' => 80,
        '\0'..='~' => 64,
        _ => 100,
    }
}

/// The lines of a text that is broken between words so that it is no wider than is given, as far as its words allow; no line for no word.
pub fn wrapped(text: &str, letters: Letters, widest: i32) -> Vec<String> {
    let mut lines: Vec<String> = Vec::new();
    for word in text.split_whitespace() {
        let longer = lines.last().map(|line| format!("{line} {word}")).filter(|longer| width(longer, letters) <= widest);
        match (lines.last_mut(), longer) {
            (Some(line), Some(longer)) => *line = longer,
            _ => lines.push(String::from(word)),
        }
    }
    lines
}
