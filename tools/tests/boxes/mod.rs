//! The room that each text of a picture takes, read only from the picture and
//! its style.
#![allow(dead_code)]

use std::collections::BTreeMap;

mod corners;
mod shapes;
pub mod style;

pub use corners::Corner;
pub use shapes::Shape;
use style::Style;

/// As parts of the size, in the widest of the common fixed-width fonts: the
/// advance of a letter, and how far letters reach above and below their line.
const ADVANCE: f64 = 0.602;
const ABOVE: f64 = 0.76;
const BELOW: f64 = 0.24;

/// A text, with its four corners in the coordinates of its part.
#[derive(Clone, Debug)]
pub struct Text {
    pub class: String,
    pub words: String,
    pub corners: [Corner; 4],
    /// Its line in the picture; what comes later is drawn over it.
    pub place: usize,
}

/// A part of the picture, which cuts off what is outside it.
#[derive(Default)]
pub struct Part {
    pub name: String,
    pub size: Corner,
    pub texts: Vec<Text>,
    /// Everything drawn except texts.
    pub shapes: Vec<Shape>,
    /// The groups: the line that opens each, then its elements, line by line.
    pub groups: Vec<Vec<String>>,
}

pub fn attribute<'a>(element: &'a str, name: &str) -> Option<&'a str> {
    let (_, rest) = element.split_once(&format!(" {name}=\""))?;
    Some(rest.split('"').next().unwrap())
}

pub fn number(element: &str, name: &str) -> f64 {
    let value = attribute(element, name).unwrap_or_else(|| panic!("{name} of {element}"));
    value.parse().unwrap_or_else(|_| panic!("{name} of {element}"))
}

/// Returns the whole picture first, then each of its parts.
pub fn parts(svg: &str) -> Vec<Part> {
    let style = Style::of(svg);
    let mut parts = vec![Part::default()];
    let mut open = 0;
    for (place, line) in svg.lines().enumerate() {
        if line.starts_with("<svg ") {
            let size = (number(line, "width"), number(line, "height"));
            let name = attribute(line, "class").unwrap_or("all").to_string();
            if name == "all" {
                parts[0] = Part { name, size, ..Part::default() };
            } else {
                open = parts.len();
                parts.push(Part { name, size, ..Part::default() });
            }
        } else if line == "</svg>" {
            open = 0;
        } else if line.starts_with("<g") {
            parts[open].groups.push(vec![line.to_string()]);
        } else if line.starts_with('<') {
            if let Some(group) = parts[open].groups.last_mut() {
                group.push(line.to_string());
            }
            if line.starts_with("<text ") {
                parts[open].texts.push(text(&style, line, place));
            }
            parts[open].shapes.extend(Shape::of(&style, line, place));
        }
    }
    parts
}

fn text(style: &Style, line: &str, place: usize) -> Text {
    let class = attribute(line, "class").expect("a class").to_string();
    let words = line.split_once('>').unwrap().1.split("</text>").next().unwrap();
    let words = words.replace("&quot;", "\"").replace("&lt;", "<").replace("&gt;", ">").replace("&amp;", "&");
    let size: f64 = style.value(&class, "font-size").parse().unwrap();
    let width = words.chars().count() as f64 * size * ADVANCE;
    let turn = turn(line);
    let begin = match style.value(&class, "text-anchor") {
        "middle" => -width / 2.0,
        "end" => -width,
        _ => 0.0,
    };
    let corners = turn.rectangle((begin, -ABOVE * size), (begin + width, BELOW * size));
    Text { class, words, corners, place }
}

/// Where an element begins, and its direction.
struct Turn {
    from: Corner,
    way: Corner,
}

fn turn(line: &str) -> Turn {
    let Some(matrix) = attribute(line, "transform") else {
        return Turn { from: (number(line, "x"), number(line, "y")), way: (1.0, 0.0) };
    };
    let inside = matrix.trim_start_matches("matrix(").trim_end_matches(')');
    let m: Vec<f64> = inside.split(' ').map(|n| n.parse().unwrap()).collect();
    Turn { from: (m[4], m[5]), way: (m[0], m[1]) }
}

impl Turn {
    fn rectangle(&self, (left, up): Corner, (right, down): Corner) -> [Corner; 4] {
        let Turn { from, way } = self;
        let corner = |along: f64, down: f64| {
            (from.0 + along * way.0 - down * way.1, from.1 + along * way.1 + down * way.0)
        };
        [corner(left, up), corner(right, up), corner(right, down), corner(left, down)]
    }
}

impl Text {
    pub fn bounds(&self) -> (Corner, Corner) {
        corners::bounds(&self.corners)
    }

    pub fn within(&self, from: Corner, to: Corner) -> bool {
        let (low, high) = self.bounds();
        let slack = 0.1;
        low.0 >= from.0 - slack && low.1 >= from.1 - slack && high.0 <= to.0 + slack && high.1 <= to.1 + slack
    }

    pub fn meets(&self, other: &Text) -> bool {
        corners::meet(&self.corners, &other.corners)
    }
}

fn columns_of(low: Corner, high: Corner) -> std::ops::RangeInclusive<i64> {
    let column = |x: f64| (x / 100.0).floor() as i64;
    column(low.0)..=column(high.0)
}

fn bounds_meet(one: (Corner, Corner), other: (Corner, Corner)) -> bool {
    let apart = |low: f64, high: f64| low > high;
    !(apart(one.0 .0, other.1 .0)
        || apart(other.0 .0, one.1 .0)
        || apart(one.0 .1, other.1 .1)
        || apart(other.0 .1, one.1 .1))
}

impl Part {
    /// Returns each text with the shapes whose bounds meet its own.
    pub fn near(&self) -> Vec<(&Text, Vec<&Shape>)> {
        let mut columns: BTreeMap<i64, Vec<&Shape>> = BTreeMap::new();
        for shape in &self.shapes {
            let (low, high) = shape.bounds();
            columns_of(low, high).for_each(|column| columns.entry(column).or_default().push(shape));
        }
        let near = |text: &Text| {
            let (low, high) = text.bounds();
            let mut near: Vec<&Shape> = columns_of(low, high)
                .filter_map(|column| columns.get(&column))
                .flatten()
                .copied()
                .filter(|shape| bounds_meet((low, high), shape.bounds()))
                .collect();
            near.sort_by_key(|shape| shape.place);
            near.dedup_by_key(|shape| shape.place);
            near
        };
        self.texts.iter().map(|text| (text, near(text))).collect()
    }

    /// Returns two texts that overlap, if there are any.
    pub fn overlap(&self) -> Option<(&Text, &Text)> {
        let mut sorted: Vec<(f64, f64, &Text)> =
            self.texts.iter().map(|text| (text.bounds().0 .0, text.bounds().1 .0, text)).collect();
        sorted.sort_by(|one, other| one.0.total_cmp(&other.0));
        for (place, (_, right, text)) in sorted.iter().enumerate() {
            let near = sorted[place + 1..].iter().take_while(|other| other.0 < *right);
            if let Some(other) = near.map(|other| other.2).find(|other| text.meets(other)) {
                return Some((text, other));
            }
        }
        None
    }
}
