//! Reads the text of a picture's file strictly: anything that is not well-formed, and any element or attribute that a picture has no need of, is an
//! error, so that a script, a style or a reference to another file is one too.

/// The elements that a picture has.
const NAMES: [&str; 7] = ["svg", "title", "g", "rect", "line", "circle", "text"];
/// The attributes that they have.
const ATTRIBUTES: [&str; 26] = [
    "xmlns",
    "width",
    "height",
    "viewBox",
    "font-family",
    "role",
    "x",
    "y",
    "rx",
    "x1",
    "y1",
    "x2",
    "y2",
    "cx",
    "cy",
    "r",
    "fill",
    "fill-opacity",
    "stroke",
    "stroke-width",
    "stroke-opacity",
    "stroke-dasharray",
    "paint-order",
    "font-size",
    "font-weight",
    "text-anchor",
];

/// An element: its name, its attributes, its own text, and the places of the elements in which it stands, outermost first.
#[derive(Clone, Debug, Default, PartialEq, Eq)]
pub struct Element {
    pub name: String,
    pub attributes: Vec<(String, String)>,
    pub text: String,
    pub within: Vec<usize>,
}

impl Element {
    /// The attribute of a name, if it has one.
    pub fn attribute(&self, name: &str) -> Option<&str> {
        self.attributes.iter().find(|(other, _)| other == name).map(|(_, value)| value.as_str())
    }

    /// The attribute of a name as a number, which it must be.
    pub fn number(&self, name: &str) -> i32 {
        let value = self.attribute(name).unwrap_or_else(|| panic!("{self:?} has no {name}"));
        value.parse().unwrap_or_else(|_| panic!("{name} is no number in {self:?}"))
    }
}

/// The elements of a file, in the order in which they begin, or what is wrong with it.
pub fn elements(file: &str) -> Result<Vec<Element>, String> {
    let (mut elements, mut open): (Vec<Element>, Vec<usize>) = (Vec::new(), Vec::new());
    let mut rest = file.strip_prefix('<').ok_or("it does not begin with an element")?;
    loop {
        let (tag, after) = rest.split_once('>').ok_or("an element has no end")?;
        match tag.strip_prefix('/') {
            Some(name) => ended(name, &elements, open.pop())?,
            None => begun(tag, &mut elements, &mut open)?,
        }
        let (text, next) = after.split_once('<').unwrap_or((after, ""));
        match open.last() {
            Some(&element) => elements[element].text += plain(text)?.trim(),
            None => return closed(text, next).map(|()| elements),
        }
        rest = next;
    }
}

/// Nothing but a line's end follows the last element.
fn closed(text: &str, next: &str) -> Result<(), String> {
    if text == "\n" && next.is_empty() {
        return Ok(());
    }
    Err(format!("'{text}<{next}' follows the last element"))
}

/// An end that must be that of the last element that began.
fn ended(name: &str, elements: &[Element], open: Option<usize>) -> Result<(), String> {
    match open.map(|open| &elements[open].name) {
        Some(open) if open == name => Ok(()),
        other => Err(format!("'{name}' ends within {other:?}")),
    }
}

/// The beginning of an element, or a whole one that ends with a stroke.
fn begun(tag: &str, elements: &mut Vec<Element>, open: &mut Vec<usize>) -> Result<(), String> {
    let (tag, is_whole) = tag.strip_suffix('/').map_or((tag, false), |tag| (tag, true));
    let (name, mut rest) = tag.split_once(' ').unwrap_or((tag, ""));
    if !NAMES.contains(&name) {
        return Err(format!("'{name}' is no element of a picture"));
    }
    let mut element = Element { name: String::from(name), within: open.clone(), ..Element::default() };
    while !rest.is_empty() {
        let (attribute, after) = attribute(rest)?;
        if element.attribute(&attribute.0).is_some() {
            return Err(format!("'{}' is there twice", attribute.0));
        }
        element.attributes.push(attribute);
        rest = after.trim_start();
    }
    if !is_whole {
        open.push(elements.len());
    }
    elements.push(element);
    Ok(())
}

/// The attribute at the front of a text, and what follows.
fn attribute(text: &str) -> Result<((String, String), &str), String> {
    let (name, after) = text.split_once("=\"").ok_or_else(|| format!("'{text}' is no attribute"))?;
    let (value, after) = after.split_once('"').ok_or_else(|| format!("'{text}' has no end"))?;
    if !ATTRIBUTES.contains(&name) {
        return Err(format!("'{name}' is no attribute of a picture"));
    }
    if !(after.is_empty() || after.starts_with(' ')) {
        return Err(format!("'{after}' follows an attribute"));
    }
    Ok(((String::from(name), plain(value)?), after))
}

/// A text as it reads, without the escapes of XML.
fn plain(text: &str) -> Result<String, String> {
    if let Some(bad) = text.chars().find(|&character| character == '<' || character == '>' || (character.is_control() && character != '\n'))
    {
        return Err(format!("{bad:?} stands in a text"));
    }
    let mut parts = text.split('&');
    let first = String::from(parts.next().unwrap_or_default());
    parts.try_fold(first, |plain, part| match part.split_once(';') {
        Some(("amp", after)) => Ok(plain + "&" + after),
        Some(("lt", after)) => Ok(plain + "<" + after),
        Some(("gt", after)) => Ok(plain + ">" + after),
        Some(("quot", after)) => Ok(plain + "\"" + after),
        _ => Err(format!("'&{part}' is no escape")),
    })
}
