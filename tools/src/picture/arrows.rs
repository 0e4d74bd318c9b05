//! Messages as arrows, from the step that sent them to the step that ended
//! them.

use super::about::About;
use super::layout::{Layout, COLUMN};
use super::paths::{Path, Shown, RING};
use super::svg::{at, Point, Svg};
use super::tiles::{Taken, Tile};
use super::words::flight_title;
use crate::names;
use crate::timeline::flights::End;
use crate::timeline::Timeline;

pub const LONG: f64 = 8.0 * COLUMN;
const HEAD: f64 = 9.0;
const HALF_HEAD: f64 = 3.4;
const CROSS: f64 = 4.5;
const DIAMOND: f64 = 5.0;
/// As far as rounding moves two corners towards each other.
const ROUNDED: f64 = 0.2;

pub fn draw(timeline: &Timeline, layout: &Layout, shown: &[Shown], taken: &mut Taken, svg: &mut Svg) {
    for one in shown {
        let visible = one.path.between(0.0, one.path.to.x);
        taken.cross(Tile::line(visible.from, visible.to, 1.3));
        let about = About::message(&one.flight.message);
        svg.of_flight(one.place, &flight_title(timeline, one.flight), about, |svg| {
            arrow(svg, taken, one, layout.queue.contains_key(&one.place))
        });
    }
}

/// Draws an arrow. One across many columns is thin, so that what it crosses
/// stays readable.
fn arrow(svg: &mut Svg, taken: &mut Taken, one: &Shown, under_way: bool) {
    let (flight, path) = (one.flight, &one.path);
    let kind = names::kind(&flight.message.kind).to_lowercase();
    let left = !under_way && matches!(flight.end, End::Left(_));
    let lost = !under_way && matches!(flight.end, End::Lost(_) | End::QueueFull | End::UnderWay);
    let style = match (lost, flight.copy_of) {
        (true, _) => " lost",
        (_, Some(_)) => " copied",
        _ => "",
    };
    let long = if path.to.x - path.from.x > LONG { " long" } else { "" };
    svg.line(&format!("arrow {kind}{style}{long}"), path.from, path.to);
    if under_way {
        ring(svg, taken, &format!("under-way {kind}"), path.to);
    } else if left {
        ring(svg, taken, &format!("left-under-way {kind}"), path.to);
    } else if lost {
        svg.cross("lost-mark", path.to, CROSS);
        taken.take(Tile::around(path.to, CROSS + 1.0));
    } else {
        head(svg, taken, &kind, path);
    }
    if flight.copy_of.is_some() {
        diamond(svg, taken, &kind, path.from);
    }
    if flight.again {
        ring(svg, taken, &format!("under-way-again {kind}"), path.from);
    }
}

fn ring(svg: &mut Svg, taken: &mut Taken, class: &str, middle: Point) {
    svg.circle(class, middle, RING);
    taken.take(Tile::around(middle, RING + 1.0));
}

fn head(svg: &mut Svg, taken: &mut Taken, kind: &str, path: &Path) {
    let (way, tip) = (path.way(), path.to);
    let back = at(tip.x - HEAD * way.x, tip.y - HEAD * way.y);
    let side = at(-HALF_HEAD * way.y, HALF_HEAD * way.x);
    let sides = [at(back.x + side.x, back.y + side.y), at(back.x - side.x, back.y - side.y)];
    svg.shape(&format!("head {kind}"), &[tip, sides[0], sides[1]]);
    taken.take(Tile::line(back, tip, 2.0 * HALF_HEAD));
}

/// Draws the mark where a copy branches off.
fn diamond(svg: &mut Svg, taken: &mut Taken, kind: &str, middle: Point) {
    let Point { x, y } = middle;
    let corners = [at(x - DIAMOND, y), at(x, y - DIAMOND), at(x + DIAMOND, y), at(x, y + DIAMOND)];
    svg.shape(&format!("doubled {kind}"), &corners);
    let half = (DIAMOND + ROUNDED) / 2.0;
    let (from, to) = (at(x - half, y - half), at(x + half, y + half));
    taken.take(Tile::line(from, to, 2.0 * half * 2.0_f64.sqrt()));
}
