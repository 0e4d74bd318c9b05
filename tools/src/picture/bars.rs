//! The bars in the rows of the lanes.

use model::step_record::CLOCK;

use super::about::About;
use super::layout::{row, Layout, BREAK, COLUMN};
use super::letters::{width, LABEL};
use super::svg::{at, Point, Svg, LEVEL};
use super::tiles::{tries, Taken, Tile};
use super::words::{span_title, wordings};
use super::writes;
use crate::timeline::spans::Span;
use crate::timeline::tracks::Track;
use crate::timeline::Timeline;

/// A bar is labelled again after this many columns.
const AGAIN: f64 = 24.0 * COLUMN;

/// A bar's upper edge and its ends.
#[derive(Clone, Copy)]
pub struct Bar {
    pub top: f64,
    pub from: f64,
    pub to: f64,
}

impl Bar {
    /// Returns the part of a span that the window shows, if any.
    fn of(timeline: &Timeline, layout: &Layout, span: &Span) -> Option<Bar> {
        let (from, to) = (begin(timeline, layout, span), end(timeline, layout, span));
        let top = layout.row(span.track).filter(|_| layout.shows(from, to))?;
        Some(Bar { top, from, to: to.min(layout.width) })
    }

    pub fn draw(&self, svg: &mut Svg, class: &str, down: f64, height: f64) {
        svg.rect(class, at(self.from, self.top + down), self.to - self.from, height);
    }

    /// Returns the bar's room between two heights, from its left end or the
    /// window's.
    fn tile(&self, high: f64, low: f64) -> Tile {
        Tile::level(at(self.from.max(0.0), self.top + high), at(self.to, self.top + low))
    }
}

fn shown<'a>(timeline: &'a Timeline, layout: &'a Layout) -> impl Iterator<Item = (&'a Span, Bar)> + 'a {
    timeline.spans.iter().filter_map(|span| Some((span, Bar::of(timeline, layout, span)?)))
}

pub fn draw(timeline: &Timeline, layout: &Layout, taken: &mut Taken, svg: &mut Svg) {
    for (span, bar) in shown(timeline, layout) {
        taken.cross(bar.tile(2.0, 18.5));
        svg.titled(&span_title(timeline, span), About::row(row(span.track)), |svg| match span.track {
            Track::Write(_) => writes::draw(timeline, layout, svg, span, bar),
            _ => mark(svg, span, bar),
        });
    }
}

/// Writes the labels of the bars, on a ground of their colour.
pub fn words(timeline: &Timeline, layout: &Layout, taken: &mut Taken, svg: &mut Svg) {
    for (span, bar) in shown(timeline, layout) {
        let Some(class) = class(timeline, layout, span) else { continue };
        let room = match span.track {
            Track::Write(_) => writes::before_latest(timeline, layout, span, bar),
            _ => bar.to,
        };
        let wordings = wordings(timeline, span);
        let labels = labels(taken, &wordings, Bar { to: room, ..bar });
        if labels.is_empty() {
            continue;
        }
        svg.titled(&span_title(timeline, span), About::row(row(span.track)), |svg| {
            for (from, words) in labels {
                svg.ground(&format!("ground {class}"), &Tile::of_words(from, LEVEL, words, LABEL));
                svg.text("bar-text", from, words);
            }
        });
    }
}

fn mark(svg: &mut Svg, span: &Span, bar: Bar) {
    let line = |svg: &mut Svg, class: &str, down: f64| {
        svg.line(class, at(bar.from, bar.top + down), at(bar.to, bar.top + down))
    };
    match span.track {
        Track::ServerVolumeLease(..) | Track::ServerObjectLease(..) => bar.draw(svg, "recorded", 2.0, 2.0),
        Track::Copy(..) => line(svg, "copy", 16.3),
        Track::Unreachable(..) => line(svg, "unreachable", 18.3),
        track => bar.draw(svg, coloured(track), 4.0, 11.0),
    }
}

/// Returns the class of a bar that is not a write's. Notes are in the row of the
/// volume's lease: there are none while it lives.
fn coloured(track: Track) -> &'static str {
    match track {
        Track::Guard(_) => "guard",
        Track::VolumeLease(..) => "volume-lease",
        Track::Notes(..) => "notes",
        _ => "object-lease",
    }
}

/// Returns the class of a bar that has words.
fn class(timeline: &Timeline, layout: &Layout, span: &Span) -> Option<&'static str> {
    match span.track {
        Track::Write(_) => Some(writes::class(timeline, layout, span)),
        Track::Guard(_) | Track::VolumeLease(..) | Track::Notes(..) | Track::ObjectLease(..) => {
            Some(coloured(span.track))
        }
        _ => None,
    }
}

/// Returns where in the picture a step has done its work. For a clock step that
/// is its column's right edge, when the time has passed.
fn done(timeline: &Timeline, layout: &Layout, step: usize) -> f64 {
    match timeline.step(step).step.kind {
        CLOCK => layout.left(step) + COLUMN,
        _ => layout.x(step),
    }
}

/// Returns where a bar begins: for one that a return put there, right of the
/// gap.
pub fn begin(timeline: &Timeline, layout: &Layout, span: &Span) -> f64 {
    match timeline.step(span.from).restored {
        Some(_) => layout.x(span.from) + BREAK,
        None => done(timeline, layout, span.from),
    }
}

/// Returns where a bar ends. If its time runs out inside a clock step, it ends
/// inside that column; writes and notes end only when a step ends them. A
/// return ends every bar, left of the gap.
fn end(timeline: &Timeline, layout: &Layout, span: &Span) -> f64 {
    let Some(step) = span.to else {
        return layout.left(timeline.steps.len() + 1);
    };
    let by_step = matches!(span.track, Track::Write(_) | Track::Notes(..));
    match timeline.passed(step, span.detail.until) {
        Some(part) if !by_step => layout.left(step) + part * COLUMN,
        _ if timeline.step(step).restored.is_some() => layout.x(step) - BREAK,
        _ => done(timeline, layout, step),
    }
}

/// Returns labels from the bar's beginning on, and again far from it, clear of
/// what no label may hide.
fn labels<'a>(taken: &mut Taken, wordings: &'a [String], bar: Bar) -> Vec<(Point, &'a str)> {
    let mut labels = Vec::new();
    let mut x = bar.from.max(0.0);
    while x < bar.to {
        let right = bar.to.min(x + AGAIN) - 2.0;
        let spots = wordings.iter().flat_map(|words| {
            let room = right - x - 3.0 - width(words, LABEL);
            tries(room).map(move |far| (at(x + 3.0 + far, bar.top + 12.4), words.as_str()))
        });
        let tiles = spots.map(|(from, words)| (Tile::of_words(from, LEVEL, words, LABEL), (from, words)));
        labels.extend(taken.first(tiles));
        x += AGAIN;
    }
    labels
}
