//! The file of a picture: it is well-formed, always the same, and no text in it stands over another or over a tick, and nothing beyond its edges.

use super::seen::{Seen, STRONG};
use super::xml::{elements, Element};
use super::{any_events, letters, played, SAMPLE};
use crate::call::{Call, Reply};
use crate::capture::stored;
use crate::comparing::random::Random;
use crate::model::capture::events;
use crate::timeline::look::{RED, WIDEST};
use crate::timeline::page::{picture, Part};
use crate::timeline::{drawn, replied, MOST};

/// Events with the largest numbers that they can have; streams that drain at once; frames with large tags and small charges; and epochs of one column.
const WIDE: [(&str, &str); 4] = [
    (
        "largest",
        "port 0\nopen 23524 16\nreserve 63 21504\nreserve 255 4294967295\narrive 63 2020 4294967295\narrive 255 4294967295 4294967295\n\
        best effort 2020 4294967295\nbest effort 4294967295 4294967295\ntick\ntick\ntransmit\nwithdraw 63\nwithdraw 255\ntick\n",
    ),
    ("draining", "port 0\nopen 2620 1\nreserve 63 84\nreserve 62 84\nwithdraw 63\ntick\nwithdraw 62\ntick\ntick\ntick\ntick\n"),
    ("labels", "port 0\nopen 2620 1\nreserve 63 200\narrive 63 84 4294967295\ntick\n"),
    ("epochs", "port 0\ntick\nopen 2620 1\ntick\ntick\ntick\ntick\ntick\ntick\ntick\ntick\ntick\ntick\ntick\n"),
];

/// An upright box: left, top, right and bottom.
type Edges = [i32; 4];

/// Pictures by name: of the first events of every stored capture that is good, of wide events, and of any events, all or some.
fn pictures() -> Vec<(String, String)> {
    let stored = stored::all().expect("the stored captures can be read");
    let stored = stored.into_iter().filter_map(|stored| Some((stored.name, events(&stored.octets).ok()?)));
    let stored = stored.map(|(name, ports)| (name, pictured(&ports.iter().map(|events| replied(events)).collect::<Vec<_>>(), 1)));
    let wide = WIDE.iter().map(|(name, text)| (String::from(*name), pictured(&[played(text)], 1)));
    let any = |number: u64| any_events(&mut Random::of(1, "files", number));
    let all = (0..10).map(|number| (format!("list {number}"), pictured(&[any(number)], 1)));
    let some = (40..60).map(|from| (format!("list {from} from {from}"), pictured(&[any(from)], from as usize)));
    stored.chain(wide).chain(all).chain(some).collect()
}

/// The picture of ports, of each the first events from a number on.
fn pictured(ports: &[Vec<(Call, Reply)>], from: usize) -> String {
    let parts = ports.iter().enumerate().map(|(port, events)| Part { port, events, shown: from..=events.len().min(MOST) });
    picture(&parts.collect::<Vec<Part>>(), "A title").expect("the events fit")
}

/// Where a text stands.
fn edges_of_text(text: &Element) -> Edges {
    let (size, bold) = (text.number("font-size"), text.attribute("font-weight").is_some());
    let (wide, x, y) = (letters::width(&text.text, size, bold), text.number("x"), text.number("y"));
    let left = match text.attribute("text-anchor") {
        Some("middle") => x - wide / 2,
        Some("end") => x - wide,
        _ => x,
    };
    [left, y - size + 2, left + wide, y + 2]
}

/// Where an element stands, if it stands anywhere.
fn edges(element: &Element) -> Option<Edges> {
    let number = |name: &str| element.attribute(name).map_or(0, |_| element.number(name));
    let around = |x: i32, y: i32, wide: i32, high: i32| Some([x, y, x + wide, y + high]);
    match element.name.as_str() {
        "text" => Some(edges_of_text(element)),
        "rect" => around(number("x"), number("y"), number("width"), number("height")),
        "line" => Some(["x1", "y1", "x2", "y2"].map(number)).map(|[x1, y1, x2, y2]| [x1.min(x2), y1.min(y2), x1.max(x2), y1.max(y2)]),
        "circle" => around(number("cx") - number("r"), number("cy") - number("r"), 2 * number("r"), 2 * number("r")),
        _ => None,
    }
}

/// What a text may not stand over: the texts, and the ticks, each with its edges.
fn obstacles(seen: &Seen) -> Vec<(&Element, Edges)> {
    let is_tick = |line: &Element| line.attribute("stroke-width") == Some(STRONG);
    let found = seen.elements.iter().filter(|element| element.name == "text" || element.name == "line" && is_tick(element));
    found.filter_map(|element| Some((element, edges(element)?))).collect()
}

/// Whether two boxes have something in common.
fn overlap(one: &Edges, other: &Edges) -> bool {
    one[0] < other[2] && other[0] < one[2] && one[1] < other[3] && other[1] < one[3]
}

/// The first two of several boxes that have something in common.
fn overlapping<'a>(boxes: &'a [(&'a Element, Edges)]) -> Option<(&'a Element, &'a Element)> {
    let others = |place: usize| boxes[place + 1..].iter().find(|(_, other)| overlap(&boxes[place].1, other));
    (0..boxes.len()).find_map(|place| others(place).map(|other| (boxes[place].0, other.0)))
}

#[test]
fn no_text_stands_over_another_or_over_a_tick() {
    for (name, file) in pictures() {
        assert_eq!(overlapping(&obstacles(&Seen::of(&file))), None, "{name}");
    }
}

#[test]
fn nothing_stands_beyond_the_edges() {
    for (name, file) in pictures() {
        let seen = Seen::of(&file);
        let (width, height) = (seen.elements[0].number("width"), seen.elements[0].number("height"));
        assert!(width <= WIDEST, "{name} is {width} wide");
        let beyond = |[left, top, right, bottom]: Edges| left < 0 || top < 0 || right > width || bottom > height;
        assert_eq!(seen.elements.iter().find(|element| edges(element).is_some_and(beyond)), None, "{name}");
    }
}

/// The rectangles of some looks, each with its edges.
fn rectangles(seen: &Seen, is_one: impl Fn(&Element) -> bool) -> Vec<(&Element, Edges)> {
    let found = seen.elements.iter().filter(|element| element.name == "rect" && is_one(element));
    found.filter_map(|element| Some((element, edges(element)?))).collect()
}

#[test]
fn no_box_stands_over_another_and_no_bar_over_another() {
    for (name, file) in pictures() {
        let seen = Seen::of(&file);
        assert_eq!(overlapping(&rectangles(&seen, |area| area.attribute("rx").is_some())), None, "{name}");
        assert_eq!(overlapping(&rectangles(&seen, |area| area.attribute("height") == Some("10"))), None, "{name}");
    }
}

#[test]
fn texts_in_boxes_stand_within_them() {
    for (name, file) in pictures() {
        let seen = Seen::of(&file);
        let boxes = rectangles(&seen, |area| area.attribute("rx").is_some() || area.attribute("stroke") == Some(RED));
        let texts = seen.elements.iter().filter(|element| element.name == "text").map(|text| (&text.text, edges_of_text(text)));
        let mut beyond = texts.filter(|(_, text)| boxes.iter().any(|(_, area)| overlap(text, area) && !within(text, area)));
        assert_eq!(beyond.next(), None, "{name}");
    }
}

/// Whether a box is within another.
fn within(one: &Edges, other: &Edges) -> bool {
    one[0] >= other[0] && one[1] >= other[1] && one[2] <= other[2] && one[3] <= other[3]
}

#[test]
fn the_same_events_give_the_same_file() {
    assert_eq!(pictures(), pictures());
}

#[test]
fn a_title_is_escaped_and_wrapped() {
    let title =
        "\"1 < 2\" & 3 > 2, which is a title of more words than stand on one line of a picture, however wide it may be, so that it has two";
    let file = drawn(0, &played(SAMPLE), 1..=8, title).expect("the events fit");
    let seen = Seen::of(&file);
    let lines: Vec<&str> = seen.texts().into_iter().take_while(|text| !text.starts_with("port")).collect();
    assert_eq!((seen.elements[1].text.as_str(), lines.len(), lines.join(" ").as_str()), (title, 2, title));
}

#[test]
fn a_title_may_have_any_character() {
    let file = drawn(0, &played(SAMPLE), 1..=8, "\u{1}a\u{7f}\u{ffff}\té").expect("the events fit");
    assert_eq!(Seen::of(&file).elements[1].text, "\u{fffd}a\u{fffd}\u{fffd}\u{fffd}é");
}

#[test]
fn a_file_is_white_and_has_letters_of_any_sort_without_serifs() {
    let file = drawn(0, &played(SAMPLE), 1..=8, "").expect("the events fit");
    let seen = Seen::of(&file);
    let [picture, _, ground] = &seen.elements[..3] else { panic!("a picture has more than two elements") };
    assert_eq!((picture.attribute("xmlns"), picture.attribute("font-family")), (Some("http://www.w3.org/2000/svg"), Some("sans-serif")));
    assert_eq!((ground.number("width"), ground.number("height")), (picture.number("width"), picture.number("height")));
    assert_eq!(ground.attribute("fill"), Some("#ffffff"));
}

#[test]
fn what_is_not_well_formed_is_found() {
    let wrong = [
        "svg",
        "<svg>",
        "<svg><g></svg></g>\n",
        "<svg></svg>",
        "<svg></svg>\n<svg></svg>\n",
        "<svg>a & b</svg>\n",
        "<svg>a &nbsp; b</svg>\n",
        "<svg>\u{1}</svg>\n",
        "<svg x=\"1\" x=\"1\"></svg>\n",
        "<svg x=\"1\"y=\"1\"></svg>\n",
        "<svg x=1></svg>\n",
        "<svg x=\"<\"></svg>\n",
        "<svg><script/></svg>\n",
        "<svg href=\"a\"></svg>\n",
    ];
    for file in wrong {
        assert!(elements(file).is_err(), "{file}");
    }
    assert!(elements("<svg x=\"&lt;&amp;\"><g/>a &gt; b</svg>\n").is_ok());
}
