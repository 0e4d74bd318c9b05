//! The lines of the explained listing, with what the text says about each step.

use std::fmt::Write;

use model::gen::runs::Run;

use super::{reasons, saved};
use crate::listed::Listed;
use crate::scenario::{Expectation, Scenario, Source};
use crate::text::actions::Action;
use crate::text::script::Line;
use crate::text::steps;
use crate::trace::{walk, Moment};

/// Returns the explained listing of a run: one line per step, and nothing else.
pub fn listing(run: &Run) -> String {
    let mut lines = String::new();
    walk(run, |moment| put(&mut lines, &line(moment)));
    lines
}

fn put(lines: &mut String, line: &str) {
    writeln!(lines, "{line}").expect("a string takes every line");
}

/// Returns the line of a step of a run file.
pub fn line(moment: &Moment) -> String {
    let step = moment.voice.said(&steps::line(&moment.step));
    format!("{} ({}) {step}: {}", moment.number, clock(moment), answered(moment, None))
}

/// Returns the line of a step, with its line of the text and what was written
/// and expected there.
pub fn line_of(scenario: &Scenario, moment: &Moment) -> String {
    let Some(origin) = scenario.line(moment.number) else {
        return line(moment);
    };
    let (number, clock, written) = (origin.number, clock(moment), written(origin, moment));
    let answered = answered(moment, scenario.expectation(moment.number));
    format!("{} (line {number}, {clock}) {written}: {answered}", moment.number)
}

/// Returns the clock after the step, "clock 10", with its time if that is
/// known.
pub fn clock(moment: &Moment) -> String {
    format!("clock {}", moment.voice.ticks(moment.clock()))
}

/// Returns what was written, and the step it stands for if the words leave that
/// open.
pub fn written(line: &Line, moment: &Moment) -> String {
    let written = &line.written;
    match line.action {
        Action::Step(_) => written.clone(),
        Action::Named(_) => format!("{written} at place {}", moment.step.place),
        Action::Join { .. } => format!("{written}, {}", moment.voice.said(&steps::line(&moment.step))),
    }
}

/// Returns the answer and the reason. Most reasons come from the model, so they
/// are left out if the library gave another answer.
pub fn answered(moment: &Moment, expectation: Option<Expectation>) -> String {
    let answer = Listed::of(&moment.answer);
    let words = match expectation {
        None => answer.words(),
        Some(expectation) => expectation.words(),
    };
    match reasons(moment) {
        reasons if reasons.is_empty() => words,
        _ if expectation.is_some_and(|expectation| expectation.found != answer) => words,
        reasons => format!("{words}: {}", reasons.join("; ")),
    }
}

/// Returns everything that explain tells about a run: its lines among the
/// comments of its text, what is still under way, and why it stopped, if it
/// did.
pub fn told(scenario: &Scenario) -> String {
    let mut lines = String::new();
    let source = scenario.source.as_ref();
    comments(&mut lines, source.map_or(&[], |source| &source.opening));
    let mut under_way = None;
    scenario.walk(|moment| {
        step(&mut lines, scenario, moment);
        if moment.number == scenario.run.steps.len() {
            under_way = saved::under_way(moment.after);
        }
    });
    comments(&mut lines, source.map_or(&[], Source::closing));
    if let Some(messages) = under_way {
        put(&mut lines, &scenario.voice.said(&format!("still under way: {messages}")));
    }
    if let Some(why) = source.and_then(Source::why_stopped) {
        put(&mut lines, &why);
    }
    lines
}

/// Adds the line of a step, with the comments of its line of the text if it is
/// the first step of that line.
fn step(lines: &mut String, scenario: &Scenario, moment: &Moment) {
    let first = *scenario.together(moment.number).start() == moment.number;
    let origin = scenario.line(moment.number).filter(|_| first);
    comments(lines, origin.map_or(&[], |line| &line.before));
    let behind = origin.and_then(|line| line.behind.as_ref());
    let behind = behind.map_or(String::new(), |comment| format!(" # {comment}"));
    put(lines, &(line_of(scenario, moment) + &behind));
}

fn comments(lines: &mut String, comments: &[String]) {
    comments.iter().for_each(|comment| put(lines, format!("# {comment}").trim_end()));
}
