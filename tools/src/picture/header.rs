//! The header above the lanes: each step in words, its answer, its number, the
//! clock.

use model::answer::Answer;

use super::about::About;
use super::layout::{Layout, COLUMN};
use super::letters::{width, VALUE, WORDS};
use super::svg::{at, Point, Svg};
use super::words::answered;
use crate::timeline::{StepView, Timeline};
use crate::voice::Voice;
use crate::{explain, names};

/// The height of a row of numbers below the words.
const ROW: f64 = 16.0;
const UP: Point = Point { x: 0.0, y: -1.0 };
/// The clock is shown again after this many columns.
const AGAIN: usize = 20;
/// Where in a column the step, its message and the answer stand.
const LINES: [f64; 3] = [-9.0, 3.0, 15.0];

/// Returns the rows of numbers below the words: the name of each, and the line
/// that its numbers stand on, counted down from the words.
pub fn rows(timeline: &Timeline) -> Vec<(&'static str, f64)> {
    let time = timeline.voice.tick.map(|_| "time");
    let line = timeline.steps.first().and_then(|view| view.text_line).map(|_| "line");
    let names = ["step", "clock"].into_iter().chain(time).chain(line);
    names.enumerate().map(|(row, name)| (name, 12.0 + row as f64 * ROW)).collect()
}

/// Returns the height of the rows of numbers.
pub fn numbers(timeline: &Timeline) -> f64 {
    rows(timeline).len() as f64 * ROW + 2.0
}

/// Returns the step as it was written, with the direction of its message; for
/// an unknown kind only the kind.
fn step(view: &StepView, voice: &Voice) -> String {
    let step = &view.written;
    match &view.message {
        Some(message) if !step.contains(names::kind(&message.kind)) => {
            let way = names::way(names::kind(&message.kind));
            format!("{step} {}", voice.said(&format!("{way} client {}", message.client)))
        }
        None if step.starts_with("kind") => format!("kind {}", view.step.kind),
        _ => step.clone(),
    }
}

/// Returns what a column says. An expectation stands beside the answer, in red
/// if it failed.
fn words(view: &StepView, voice: &Voice) -> [String; 3] {
    let message = match (&view.message, view.restored) {
        (Some(message), _) => names::label(message),
        (None, Some(saved)) => format!("saved in step {saved}"),
        (None, None) => String::new(),
    };
    let answer = view.expectation.map_or_else(|| explain::answer(&view.answer), |expected| expected.words());
    [step(view, voice), voice.said(&message), answer]
}

/// Returns the height of the header: that of the longest words, so that none
/// are cut.
pub fn height(timeline: &Timeline, layout: &Layout) -> f64 {
    let views = &timeline.steps[layout.window.from - 1..layout.window.to];
    let words = views.iter().flat_map(|view| words(view, &layout.voice));
    words.map(|words| width(&words, WORDS)).fold(60.0, f64::max).ceil() + 10.0 + numbers(timeline)
}

pub fn draw(timeline: &Timeline, layout: &Layout, height: f64, svg: &mut Svg) {
    let base = height - numbers(timeline);
    svg.line("edge", at(0.0, base), at(layout.width, base));
    let rows = rows(timeline);
    for number in layout.window.from..=layout.window.to {
        let (view, x) = (timeline.step(number), layout.x(number));
        column(svg, view, layout.left(number), height);
        if view.left {
            svg.rect("left-behind", at(layout.left(number), 0.0), COLUMN, height);
        }
        svg.titled(&view.line, About::step(view), |svg| {
            let answer = if view.failed() { "failed" } else { answered(view) };
            let answer = format!("answer {answer}-text");
            let classes = ["step", "about", &answer];
            for ((words, class), line) in words(view, &layout.voice).iter().zip(classes).zip(LINES) {
                if !words.is_empty() {
                    svg.text_along(class, at(x + line, base - 5.0), UP, words);
                }
            }
        });
        for (name, down) in &rows {
            below(svg, layout, number, view, (name, base + down));
        }
    }
}

/// Writes a step's entry in a row of numbers: clock and time in every column
/// that changes them, and now and then.
fn below(svg: &mut Svg, layout: &Layout, number: usize, view: &StepView, (row, y): (&str, f64)) {
    let moved = view.clock != view.clock_before;
    let again = (number - layout.window.from).is_multiple_of(AGAIN);
    let spot = at(layout.x(number), y);
    let clock = if moved { "clock" } else { "clock again" };
    match (row, view.text_line) {
        ("step", _) => svg.text("number", spot, &number.to_string()),
        ("clock", _) if moved || again => fitted(svg, clock, spot, &view.clock.to_string()),
        ("time", _) if moved || again => {
            let time = layout.voice.tick.map_or(String::new(), |tick| tick.time(view.clock));
            fitted(svg, clock, spot, &time)
        }
        ("line", Some(line)) => svg.text("text-line", spot, &line.to_string()),
        _ => (),
    }
}

/// Writes words within a column, narrowed if needed.
fn fitted(svg: &mut Svg, class: &str, spot: Point, words: &str) {
    let room = COLUMN - 2.0;
    match width(words, VALUE) {
        wide if wide > room => svg.narrowed(class, spot, room / wide, words),
        _ => svg.text(class, spot, words),
    }
}

/// Draws a column's background. Time passes only in the columns of clock steps;
/// refused steps are red, and failed expectations redder.
pub fn column(svg: &mut Svg, view: &StepView, left: f64, height: f64) {
    if view.passes_time() {
        svg.rect("time", at(left, 0.0), COLUMN, height);
    }
    if matches!(view.answer, Answer::Refused(_)) {
        svg.rect("refusal", at(left, 0.0), COLUMN, height);
    }
    if view.failed() {
        svg.rect("failure", at(left, 0.0), COLUMN, height);
    }
}
