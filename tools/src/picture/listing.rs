//! The listing below the picture: each step with what its text says about it, a
//! join as one entry that opens into its steps, comments beside their steps.

use std::fmt::Write;

use super::about::About;
use super::layout::Layout;
use super::svg::{escaped, n};
use super::words::answered;
use crate::scenario::Scenario;
use crate::text::script::Line;
use crate::timeline::{StepView, Timeline};

pub fn listing(scenario: &Scenario, timeline: &Timeline, layout: &Layout) -> String {
    let mut out = Listing(String::new());
    let (from, to) = (layout.window.from, layout.window.to);
    let whole = scenario.source.as_ref();
    if let Some(source) = whole.filter(|_| from == 1) {
        out.comments(&source.opening, About::default());
    }
    for number in from..=to {
        let view = timeline.step(number);
        let together = scenario.together(number);
        let (first, last) = (from.max(*together.start()), to.min(*together.end()));
        let line = scenario.line(number);
        if let Some(line) = line.filter(|_| number == first) {
            out.comments(&line.before, About::step(view));
        }
        match line.filter(|_| scenario.joins(number)) {
            None => out.step(number, view, line.and_then(|line| line.behind.as_deref()), layout),
            Some(line) => {
                if number == first {
                    out.open(line, first, last, timeline);
                }
                out.step(number, view, None, layout);
                if number == last {
                    out.put("</details>");
                }
            }
        }
    }
    if let Some(source) = whole.filter(|_| to == timeline.steps.len()) {
        out.comments(source.closing(), About::default());
    }
    if let Some(stopped) = timeline.stopped.as_ref().filter(|_| to == timeline.steps.len()) {
        out.put(&format!("<p class=\"stopped failed\">{}</p>", escaped(stopped)));
    }
    out.0
}

struct Listing(String);

impl Listing {
    fn put(&mut self, line: &str) {
        writeln!(self.0, "{line}").expect("a string takes every line");
    }

    fn comments(&mut self, comments: &[String], about: About) {
        for comment in comments {
            self.put(&format!("<p class=\"comment\"{about}># {}</p>", escaped(comment)));
        }
    }

    /// Writes a step, with what it is about, its kind of answer, the outcome of
    /// its expectation, whether it was left behind, and the y of its lane.
    fn step(&mut self, number: usize, view: &StepView, behind: Option<&str>, layout: &Layout) {
        let (about, answer, lane) = (About::step(view), answered(view), n(layout.lane(view)));
        let expected =
            view.expectation.map_or(String::new(), |_| format!(" data-expected=\"{}\"", held(view)));
        let behind = behind.map_or(String::new(), comment);
        let left = left(view);
        self.put(&format!(
            "<p data-step=\"{number}\"{about} data-answer=\"{answer}\"{expected}{left} \
             data-lane=\"{lane}\">{}{behind}</p>",
            told(view)
        ));
    }

    /// Begins the entry of a join.
    fn open(&mut self, line: &Line, first: usize, last: usize, timeline: &Timeline) {
        let view = timeline.step(last);
        let about = About::client(view.message.map_or(view.step.client, |message| message.client).into());
        let (number, clock) = (line.number, timeline.voice.ticks(view.clock));
        let (written, behind) =
            (escaped(&line.written), line.behind.as_deref().map_or(String::new(), comment));
        let left = left(view);
        self.put(&format!(
            "<details class=\"join\"{about}{left}><summary>{first} to {last} (line {number}, clock {clock}) \
             {written}{behind}</summary>"
        ));
    }
}

/// Returns the attribute of a step left behind.
fn left(view: &StepView) -> &'static str {
    if view.left {
        " data-left"
    } else {
        ""
    }
}

fn comment(words: &str) -> String {
    format!(" <span class=\"comment\"># {}</span>", escaped(words))
}

fn held(view: &StepView) -> &'static str {
    if view.failed() {
        "failed"
    } else {
        "held"
    }
}

/// Returns the explained line, with the expectation marked.
fn told(view: &StepView) -> String {
    let line = escaped(&view.line);
    let Some(expectation) = view.expectation else {
        return line;
    };
    let words = format!(": {}", escaped(&expectation.words()));
    let (class, marked) = (held(view), words.trim_start_matches(": "));
    line.replacen(&words, &format!(": <span class=\"{class}\">{marked}</span>"), 1)
}
