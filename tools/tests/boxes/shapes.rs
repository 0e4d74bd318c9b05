//! Everything drawn except texts: lines with their width, rectangles, circles
//! and closed shapes.

use super::corners::{self, holds, meet, Corner};
use super::style::Style;
use super::{attribute, number, turn, Text};

#[derive(Clone, Copy, Debug, PartialEq, Eq)]
pub enum Form {
    Line,
    Rectangle,
    Circle,
    Closed,
}

#[derive(Clone, Debug)]
pub struct Shape {
    pub class: String,
    form: Form,
    corners: Vec<Corner>,
    /// Its line in the picture, as for a text.
    pub place: usize,
}

impl Shape {
    pub fn of(style: &Style, line: &str, place: usize) -> Option<Shape> {
        let class = attribute(line, "class")?.to_string();
        let stroke: f64 = style.value(&class, "stroke-width").parse().unwrap();
        let (form, corners) = match line.split(' ').next()? {
            "<line" => (Form::Line, segment(line, stroke)),
            "<rect" => (Form::Rectangle, rectangle(line)),
            "<circle" => (Form::Circle, circle(line, stroke)),
            "<polygon" => (Form::Closed, polygon(line)),
            _ => return None,
        };
        Some(Shape { class, form, corners, place })
    }

    pub fn bounds(&self) -> (Corner, Corner) {
        corners::bounds(&self.corners)
    }

    fn is(&self, class: &str) -> bool {
        self.class.split(' ').any(|one| one == class)
    }

    /// Returns whether the shape runs through a text. Paper, shaded columns and
    /// the ruling behind everything may lie under words, and so may bars, since
    /// their words have grounds.
    pub fn runs_through(&self, text: &Text) -> bool {
        let ruling = ["row", "column", "edge"].iter().any(|class| self.is(class));
        !ruling && self.form != Form::Rectangle && meet(&self.corners, &text.corners)
    }

    /// Returns whether this hides what is drawn before it everywhere in the
    /// text's room.
    pub fn is_ground_of(&self, text: &Text) -> bool {
        let filled = self.is("ground") || self.is("ask-first");
        filled && self.place < text.place && text.corners.iter().all(|&corner| holds(&self.corners, corner))
    }

    /// Returns whether it is a ground over a head, a diamond, a cross, a ring
    /// or a spot.
    pub fn hides(&self, other: &Shape) -> bool {
        let cross = ["lost-mark", "refused"].iter().any(|class| other.is(class));
        let mark = cross || matches!(other.form, Form::Circle | Form::Closed);
        self.is("ground") && mark && other.place < self.place && meet(&self.corners, &other.corners)
    }

    pub fn within(&self, other: &Shape) -> bool {
        self.corners.iter().all(|&corner| holds(&other.corners, corner))
    }
}

fn segment(line: &str, width: f64) -> Vec<Corner> {
    let (x1, y1, x2, y2) = (number(line, "x1"), number(line, "y1"), number(line, "x2"), number(line, "y2"));
    let length = (x2 - x1).hypot(y2 - y1).max(0.1);
    let side = (-(y2 - y1) / length * width / 2.0, (x2 - x1) / length * width / 2.0);
    vec![
        (x1 + side.0, y1 + side.1),
        (x2 + side.0, y2 + side.1),
        (x2 - side.0, y2 - side.1),
        (x1 - side.0, y1 - side.1),
    ]
}

fn rectangle(line: &str) -> Vec<Corner> {
    if attribute(line, "transform").is_none() && attribute(line, "x").is_none() {
        return vec![
            (0.0, 0.0),
            (number(line, "width"), 0.0),
            (number(line, "width"), number(line, "height")),
        ];
    }
    turn(line).rectangle((0.0, 0.0), (number(line, "width"), number(line, "height"))).to_vec()
}

/// Returns eight corners on the outside of a circle's line.
fn circle(line: &str, stroke: f64) -> Vec<Corner> {
    let (x, y, r) = (number(line, "cx"), number(line, "cy"), number(line, "r") + stroke / 2.0);
    let angles = (0..8).map(|eighth| f64::from(eighth) * std::f64::consts::FRAC_PI_4);
    angles.map(|angle| (x + r * angle.cos(), y + r * angle.sin())).collect()
}

fn polygon(line: &str) -> Vec<Corner> {
    let points = attribute(line, "points").unwrap().split(' ');
    let corner = |point: &str| point.split_once(',').map(|(x, y)| (x.parse().unwrap(), y.parse().unwrap()));
    points.map(|point| corner(point).unwrap()).collect()
}
