//! Writes SVG elements. Coordinates are rounded to a tenth, and only sums,
//! products and roots go into them, so that a picture is the same everywhere.

use std::fmt::Write;

use super::about::About;
use super::tiles::Tile;

#[derive(Clone, Copy, Debug, PartialEq)]
pub struct Point {
    pub x: f64,
    pub y: f64,
}

/// From left to right.
pub const LEVEL: Point = Point { x: 1.0, y: 0.0 };

pub fn at(x: f64, y: f64) -> Point {
    Point { x, y }
}

#[derive(Default)]
pub struct Svg(pub String);

/// Returns a number of the picture, without a needless ".0".
pub fn n(number: f64) -> String {
    let text = format!("{number:.1}");
    let text = text.strip_suffix(".0").unwrap_or(&text);
    if text == "-0" {
        "0".into()
    } else {
        text.into()
    }
}

pub fn escaped(text: &str) -> String {
    let mut out = String::with_capacity(text.len());
    for c in text.chars() {
        match c {
            '&' => out.push_str("&amp;"),
            '<' => out.push_str("&lt;"),
            '>' => out.push_str("&gt;"),
            '"' => out.push_str("&quot;"),
            _ => out.push(c),
        }
    }
    out
}

/// Returns a transform to a point and the direction of a unit vector.
fn turn(a: Point, way: Point) -> String {
    format!("matrix({:.3} {:.3} {:.3} {:.3} {} {})", way.x, way.y, -way.y, way.x, n(a.x), n(a.y))
}

impl Svg {
    fn put(&mut self, element: std::fmt::Arguments) {
        self.0.write_fmt(element).expect("a string takes every element");
        self.0.push('\n');
    }

    pub fn line(&mut self, class: &str, a: Point, b: Point) {
        let (x1, y1, x2, y2) = (n(a.x), n(a.y), n(b.x), n(b.y));
        self.put(format_args!("<line class=\"{class}\" x1=\"{x1}\" y1=\"{y1}\" x2=\"{x2}\" y2=\"{y2}\"/>"));
    }

    pub fn rect(&mut self, class: &str, a: Point, width: f64, height: f64) {
        let (x, y, width, height) = (n(a.x), n(a.y), n(width), n(height));
        self.put(format_args!(
            "<rect class=\"{class}\" x=\"{x}\" y=\"{y}\" width=\"{width}\" height=\"{height}\"/>"
        ));
    }

    pub fn circle(&mut self, class: &str, center: Point, radius: f64) {
        let (x, y, r) = (n(center.x), n(center.y), n(radius));
        self.put(format_args!("<circle class=\"{class}\" cx=\"{x}\" cy=\"{y}\" r=\"{r}\"/>"));
    }

    /// Draws a closed shape.
    pub fn shape(&mut self, class: &str, points: &[Point]) {
        let points: Vec<String> = points.iter().map(|p| format!("{},{}", n(p.x), n(p.y))).collect();
        self.put(format_args!("<polygon class=\"{class}\" points=\"{}\"/>", points.join(" ")));
    }

    pub fn cross(&mut self, class: &str, center: Point, size: f64) {
        let Point { x, y } = center;
        self.line(class, at(x - size, y - size), at(x + size, y + size));
        self.line(class, at(x - size, y + size), at(x + size, y - size));
    }

    pub fn text(&mut self, class: &str, a: Point, words: &str) {
        let (x, y, words) = (n(a.x), n(a.y), escaped(words));
        self.put(format_args!("<text class=\"{class}\" x=\"{x}\" y=\"{y}\">{words}</text>"));
    }

    /// Writes text in the direction of a unit vector.
    pub fn text_along(&mut self, class: &str, a: Point, way: Point, words: &str) {
        let (turn, words) = (turn(a, way), escaped(words));
        self.put(format_args!("<text class=\"{class}\" transform=\"{turn}\">{words}</text>"));
    }

    /// Writes text narrower than its font, at the same height.
    pub fn narrowed(&mut self, class: &str, a: Point, part: f64, words: &str) {
        let (x, y, words) = (n(a.x), n(a.y), escaped(words));
        self.put(format_args!(
            "<text class=\"{class}\" transform=\"matrix({part:.3} 0 0 1 {x} {y})\">{words}</text>"
        ));
    }

    /// Draws the ground of a label, which hides what runs through its room.
    pub fn ground(&mut self, class: &str, tile: &Tile) {
        let (corner, width, height) = tile.unturned();
        if tile.way.y == 0.0 {
            return self.rect(class, corner, width, height);
        }
        let (turn, width, height) = (turn(corner, tile.way), n(width), n(height));
        self.put(format_args!(
            "<rect class=\"{class}\" transform=\"{turn}\" width=\"{width}\" height=\"{height}\"/>"
        ));
    }

    /// Groups elements that show these words when pointed at.
    pub fn titled(&mut self, title: &str, about: About, inside: impl FnOnce(&mut Svg)) {
        self.group(about, |svg| {
            svg.put(format_args!("<title>{}</title>", escaped(title)));
            inside(svg);
        });
    }

    /// Does the same for a message, by its index in the list of flights: its
    /// arrow, and apart from it its labels.
    pub fn of_flight(&mut self, place: usize, title: &str, about: About, inside: impl FnOnce(&mut Svg)) {
        self.put(format_args!("<g data-flight=\"{place}\"{about}>\n<title>{}</title>", escaped(title)));
        inside(self);
        self.put(format_args!("</g>"));
    }

    pub fn group(&mut self, about: About, inside: impl FnOnce(&mut Svg)) {
        self.put(format_args!("<g{about}>"));
        inside(self);
        self.put(format_args!("</g>"));
    }

    /// Writes a name, with how far down the thing that it names reaches.
    pub fn name(&mut self, about: About, (top, bottom): (f64, f64), inside: impl FnOnce(&mut Svg)) {
        let (top, bottom) = (n(top), n(bottom));
        self.put(format_args!("<g{about} data-top=\"{top}\" data-bottom=\"{bottom}\">"));
        inside(self);
        self.put(format_args!("</g>"));
    }

    /// Writes a part of the picture with its own coordinates, cut off at its
    /// edges.
    pub fn part(&mut self, class: &str, a: Point, width: f64, height: f64, inside: &str) {
        let (x, y, width, height) = (n(a.x), n(a.y), n(width), n(height));
        self.put(format_args!(
            "<svg class=\"{class}\" x=\"{x}\" y=\"{y}\" width=\"{width}\" height=\"{height}\" \
             viewBox=\"0 0 {width} {height}\">\n{inside}</svg>"
        ));
    }
}
