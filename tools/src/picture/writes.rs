//! The bars of writes, with their latest ends.

use model::step_record::{RESTART_SERVER, WRITE};

use super::bars::{begin, Bar};
use super::layout::{Layout, BREAK, COLUMN};
use super::svg::{at, Svg};
use crate::timeline::spans::Span;
use crate::timeline::tracks::Track;
use crate::timeline::Timeline;

/// Returns the class of a write's bar: one cut off by a restart looks
/// different.
pub fn class(timeline: &Timeline, layout: &Layout, span: &Span) -> &'static str {
    match cut_off(timeline, layout, span) {
        true => "write cut-off",
        false => "write",
    }
}

fn cut_off(timeline: &Timeline, layout: &Layout, span: &Span) -> bool {
    ended(layout, span).is_some_and(|step| timeline.step(step).step.kind == RESTART_SERVER)
}

/// Returns whether a return in the window left the write behind while it stood.
fn left(timeline: &Timeline, layout: &Layout, span: &Span) -> bool {
    ended(layout, span).is_some_and(|step| timeline.step(step).restored.is_some())
}

/// Returns the step in the window that ended it.
fn ended(layout: &Layout, span: &Span) -> Option<usize> {
    span.to.filter(|&step| step <= layout.window.to)
}

/// Draws a write's bar, with a line down to the step that accepted it. Its latest
/// end is where the clock reaches it: a tick in the bar, or, if the write
/// completed earlier, a thin line up to there.
pub fn draw(timeline: &Timeline, layout: &Layout, svg: &mut Svg, span: &Span, bar: Bar) {
    let Bar { top, from, to } = bar;
    let unfinished = cut_off(timeline, layout, span) || left(timeline, layout, span);
    bar.draw(svg, class(timeline, layout, span), 4.0, 11.0);
    if timeline.step(span.from).restored.is_none() {
        svg.line("drop", at(from, top + 15.0), at(from, layout.server));
    }
    if ended(layout, span).is_some() && !unfinished {
        svg.shape("completed", &[at(to, top + 4.0), at(to + 6.0, top + 9.5), at(to, top + 15.0)]);
    }
    let (latest, reached) = latest_end(timeline, layout, span);
    if latest > to && unfinished {
        return;
    }
    if latest > to {
        svg.line("latest-rest", at(to, top + 9.5), at(latest.min(layout.width), top + 9.5));
    }
    if reached && latest <= layout.width {
        svg.line("latest", at(latest, top + 2.0), at(latest, top + 17.0));
    }
}

/// Returns how far a write's words may go: they keep clear of the tick.
pub fn before_latest(timeline: &Timeline, layout: &Layout, span: &Span, bar: Bar) -> f64 {
    match latest_end(timeline, layout, span) {
        (latest, true) if latest > bar.from => bar.to.min(latest),
        _ => bar.to,
    }
}

/// Returns where the clock reaches a write's latest end, if it does so before
/// the object's next write and before a return; otherwise how far it gets. A
/// write that a return put there may have reached it before.
fn latest_end(timeline: &Timeline, layout: &Layout, span: &Span) -> (f64, bool) {
    if timeline.step(span.from).clock >= span.detail.until {
        return (begin(timeline, layout, span), true);
    }
    for number in span.from..=timeline.steps.len() {
        if let Some(part) = timeline.passed(number, span.detail.until) {
            return (layout.left(number) + part * COLUMN, true);
        }
        let view = timeline.step(number);
        if number > span.from && view.restored.is_some() {
            return (layout.x(number) - BREAK, false);
        }
        let stands = span.to.is_none_or(|to| number <= to);
        if !stands && (view.step.kind == RESTART_SERVER || next_write(timeline, number, span)) {
            return (layout.left(number), false);
        }
    }
    (layout.left(timeline.steps.len() + 1), false)
}

fn next_write(timeline: &Timeline, number: usize, span: &Span) -> bool {
    let step = &timeline.step(number).step;
    step.kind == WRITE && Track::Write(step.object.into()) == span.track
}
