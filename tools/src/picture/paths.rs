//! The path of each message through the picture.

use super::layout::{Layout, BREAK};
use super::svg::{at, Point};
use crate::timeline::flights::{End, Flight};

/// The radius of the ring at a message under way.
pub const RING: f64 = 3.0;

#[derive(Clone, Copy)]
pub struct Path {
    pub from: Point,
    pub to: Point,
}

impl Path {
    pub fn length(&self) -> f64 {
        let (x, y) = (self.to.x - self.from.x, self.to.y - self.from.y);
        (x * x + y * y).sqrt()
    }

    /// Returns the unit vector along the path.
    pub fn way(&self) -> Point {
        let length = self.length().max(1.0);
        at((self.to.x - self.from.x) / length, (self.to.y - self.from.y) / length)
    }

    pub fn at_x(&self, x: f64) -> Point {
        let part = (x - self.from.x) / (self.to.x - self.from.x).max(1.0);
        at(x, self.from.y + part * (self.to.y - self.from.y))
    }

    pub fn along(&self, length: f64) -> Point {
        let way = self.way();
        at(self.from.x + length * way.x, self.from.y + length * way.y)
    }

    /// Returns the part of the path between two verticals.
    pub fn between(&self, left: f64, right: f64) -> Path {
        Path { from: self.at_x(self.from.x.max(left)), to: self.at_x(self.to.x.min(right)) }
    }
}

/// A message of which the window shows something, with its index in the list of
/// flights.
pub struct Shown<'a> {
    pub place: usize,
    pub flight: &'a Flight,
    pub path: Path,
}

pub fn shown<'a>(layout: &Layout, flights: &'a [Flight]) -> Vec<Shown<'a>> {
    let paths = all(layout, flights).into_iter().zip(flights).enumerate();
    let shown = paths.map(|(place, (path, flight))| Shown { place, flight, path });
    shown.filter(|one| layout.shows(one.path.from.x, one.path.to.x)).collect()
}

/// Returns the paths of all flights, including those outside the window.
fn all(layout: &Layout, flights: &[Flight]) -> Vec<Path> {
    let mut paths: Vec<Path> = Vec::with_capacity(flights.len());
    for (place, flight) in flights.iter().enumerate() {
        let from = from(layout, &paths, flight);
        paths.push(Path { from, to: to(layout, place, flight, from) });
    }
    paths
}

/// Returns where a path begins. A copy branches off from the message that it is
/// a copy of; one under way again begins right of the return.
fn from(layout: &Layout, paths: &[Path], flight: &Flight) -> Point {
    let (x, (sender, _)) = (layout.x(flight.sent), layout.ends(&flight.message));
    if flight.again {
        return at(x + BREAK + RING, layout.begun(&flight.message));
    }
    flight.copy_of.map_or(at(x, sender), |original| paths[original].at_x(x))
}

/// Returns where a path ends. A message that does not arrive ends short of its
/// receiver's line, never at another's.
fn to(layout: &Layout, place: usize, flight: &Flight, from: Point) -> Point {
    if let Some((spot, _)) = layout.queue.get(&place) {
        return *spot;
    }
    let short = layout.short(&flight.message);
    match flight.end {
        End::Delivered(step) => at(layout.x(step), layout.ends(&flight.message).1),
        End::Lost(step) => at(layout.x(step), short),
        End::Left(step) => at(layout.x(step) - BREAK - RING, short),
        End::QueueFull => at(from.x + 14.0, short),
        // Sent after the window.
        End::UnderWay => at(from.x, short),
    }
}
