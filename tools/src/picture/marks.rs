//! The marks of steps on the lanes: reads shown or not, asks, writes, restarts,
//! saves, returns, refusals.

use model::answer::Answer;
use model::step_record::*;

use super::about::About;
use super::header::column;
use super::layout::{Layout, BREAK, COLUMN};
use super::letters::{cut, VALUE};
use super::svg::{at, Point, Svg};
use super::tiles::{Taken, Tile};
use crate::timeline::{StepView, Timeline};

/// Draws the columns of time, of refusals and of steps left behind, and the line
/// of a save through all lanes, behind everything.
pub fn columns(timeline: &Timeline, layout: &Layout, svg: &mut Svg) {
    for number in layout.window.from..=layout.window.to {
        let view = timeline.step(number);
        column(svg, view, layout.left(number), layout.height);
        shade(timeline, layout, svg, number);
        if view.step.kind == SAVE && !matches!(view.answer, Answer::Refused(_)) {
            svg.line("save", at(layout.x(number), 0.0), at(layout.x(number), layout.height));
        }
        let right = layout.left(number) + COLUMN;
        svg.line("column", at(right, 0.0), at(right, layout.height));
    }
}

/// Shades a step left behind. The left half of a return's column belongs to the
/// step before it.
fn shade(timeline: &Timeline, layout: &Layout, svg: &mut Svg, number: usize) {
    let (view, left, half) = (timeline.step(number), layout.left(number), COLUMN / 2.0);
    let before = match view.restored {
        Some(_) => timeline.step(number - 1).left,
        None => view.left,
    };
    for (shaded, from) in [(before, left), (view.left, left + half)] {
        if shaded {
            svg.rect("left-behind", at(from, 0.0), half, layout.height);
        }
    }
}

pub fn draw(timeline: &Timeline, layout: &Layout, taken: &mut Taken, svg: &mut Svg) {
    for number in layout.window.from..=layout.window.to {
        let view = timeline.step(number);
        let spot = at(layout.x(number), layout.lane(view));
        svg.titled(&view.line, About::step(view), |svg| {
            mark(layout, taken, svg, view, spot);
            if let Some((class, words)) = said(view) {
                let beside = at(spot.x, layout.beside(spot.y));
                let tile = Tile::of_centered(beside, &words, VALUE);
                svg.ground("ground", &tile);
                svg.text(&format!("value {class}"), beside, &words);
                taken.take(tile);
            }
        });
    }
}

fn mark(layout: &Layout, taken: &mut Taken, svg: &mut Svg, view: &StepView, spot: Point) {
    let Point { x, y } = spot;
    match (view.answer, view.step.kind) {
        (Answer::Refused(_), _) => svg.cross("refused", spot, 5.5),
        (Answer::Shown(_), _) => svg.circle("shown", spot, 6.0),
        (Answer::AskFirst, _) => {
            svg.circle("ask-first", spot, 6.0);
            svg.text("question", at(x, y + 3.2), "?");
        }
        (answer, WRITE) => write(svg, taken, answer, spot),
        (_, ASK) => svg.circle("asked", spot, 3.0),
        (_, RESTART_SERVER | RESTART_CLIENT) => return restart(layout, taken, svg, view, spot),
        (_, SAVE) => svg.shape("saved", &flag(spot)),
        (_, RETURN) => return broken(layout, taken, svg, x),
        _ => return,
    }
    taken.take(Tile::around(spot, 7.0));
}

/// Returns the words beside the lane's line, with their class. A write that
/// completes on acceptance has no bar, so its value is shown here.
fn said(view: &StepView) -> Option<(&'static str, String)> {
    let value = |value: u64| cut(&value.to_string(), COLUMN - 2.0, VALUE);
    match (view.answer, view.step.kind) {
        (Answer::Refused(refusal), _) => Some(("refused-text", refusal.to_string())),
        (Answer::Shown(shown), _) => Some(("shown-text", value(shown))),
        (Answer::Completed(_), WRITE) => Some(("completed-text", value(view.step.value))),
        (_, RESTART_SERVER | RESTART_CLIENT) => Some(("restart-text", "restart".into())),
        (_, SAVE) => Some(("saved-text", format!("save {}", view.step.place))),
        (_, RETURN) => Some(("saved-text", format!("return {}", view.step.place))),
        _ => None,
    }
}

fn write(svg: &mut Svg, taken: &mut Taken, answer: Answer, spot: Point) {
    let Point { x, y } = spot;
    svg.rect("accepted", at(x - 4.0, y - 4.0), 8.0, 8.0);
    if matches!(answer, Answer::Completed(_)) {
        svg.shape("completed", &[at(x + 4.0, y - 6.0), at(x + 11.0, y), at(x + 4.0, y + 6.0)]);
        taken.take(Tile::around(at(x + 6.0, y), 6.0));
    }
}

/// Returns the corners of the mark of a save.
pub fn flag(middle: Point) -> [Point; 5] {
    let Point { x, y } = middle;
    [at(x - 4.0, y - 6.0), at(x + 4.0, y - 6.0), at(x + 4.0, y + 6.0), at(x, y + 2.0), at(x - 4.0, y + 6.0)]
}

/// Draws the gap of a return through all lanes: nothing goes on across it.
fn broken(layout: &Layout, taken: &mut Taken, svg: &mut Svg, x: f64) {
    gap(svg, at(x, 0.0), layout.height);
    taken.take(Tile::level(at(x - BREAK, 0.0), at(x + BREAK, layout.height)));
}

/// Draws a gap down from a point.
pub fn gap(svg: &mut Svg, top: Point, height: f64) {
    svg.rect("gap", at(top.x - BREAK, top.y), 2.0 * BREAK, height);
    for side in [-BREAK, BREAK] {
        svg.line("return", at(top.x + side, top.y), at(top.x + side, top.y + height));
    }
}

/// Draws a bar across the rows of the lane, except for the word beside the
/// line: the server's rows are above its line, a client's below.
fn restart(layout: &Layout, taken: &mut Taken, svg: &mut Svg, view: &StepView, spot: Point) {
    let client = (view.step.kind == RESTART_CLIENT).then_some(usize::from(view.step.client));
    let rows = layout.rows.iter().filter(|(row, _)| row.client() == client);
    let mut bar = |high: f64, low: f64| {
        svg.line("restart", at(spot.x, high), at(spot.x, low));
        taken.take(Tile::level(at(spot.x - 3.0, high), at(spot.x + 3.0, low)));
    };
    bar(spot.y - 6.0, spot.y + 6.0);
    let tops: Vec<f64> = rows.map(|(_, top)| *top).collect();
    if let (Some(first), Some(last)) = (tops.first(), tops.last()) {
        bar(*first, last + 17.0);
    }
}
