//! A run over time: its steps, the path of each message, and how long each
//! lease, copy, write, guard, note and mark lasted, all read from the model's
//! tables.

pub mod flights;
pub mod spans;
pub mod tracks;

use model::answer::Answer;
use model::gen::runs::Run;
use model::message::Message;
use model::setup::Setup;
use model::step_record::{Step, CLOCK, DELIVER, DOUBLE, LOSE};

use crate::check::verdict;
use crate::explain;
use crate::latest_end::{self, Cause};
use crate::line::Lines;
use crate::scenario::{Expectation, Scenario, Source};
use crate::text::steps;
use crate::trace::Moment;
use crate::voice::Voice;
use flights::{Flight, Flights};
use spans::{Span, Spans};
use tracks::Track;

pub struct StepView {
    pub step: Step,
    pub answer: Answer,
    pub clock_before: u32,
    pub clock: u32,
    /// The message that the step delivered, lost or doubled.
    pub message: Option<Message>,
    /// What fixes the latest end of the write that the step opened, if it still
    /// stands after the step.
    pub cause: Option<Cause>,
    /// The step's line of the explained listing.
    pub line: String,
    /// The step as its text has it, or in the text form.
    pub written: String,
    /// The number of its line in the text.
    pub text_line: Option<usize>,
    pub expectation: Option<Expectation>,
    /// The step that saved the state which the step restored, for a return that
    /// was not refused.
    pub restored: Option<usize>,
    /// Whether a return has left the step behind: it is not on the line to the
    /// end of the run.
    pub left: bool,
}

impl StepView {
    fn of(scenario: &Scenario, moment: &Moment) -> StepView {
        let line = scenario.line(moment.number);
        StepView {
            step: moment.step,
            answer: moment.answer,
            clock_before: moment.before.tables.clock,
            clock: moment.clock(),
            message: message(moment),
            cause: latest_end::cause(moment),
            line: explain::line_of(scenario, moment),
            written: line.map_or_else(
                || moment.voice.said(&steps::line(&moment.step)),
                |line| explain::written(line, moment),
            ),
            text_line: line.map(|line| line.number),
            expectation: scenario.expectation(moment.number),
            restored: moment.restored(),
            left: false,
        }
    }

    /// Returns whether time passes in the step. A return moves the clock, too,
    /// but no time passes.
    pub fn passes_time(&self) -> bool {
        self.step.kind == CLOCK && self.clock != self.clock_before
    }

    /// Returns whether something else was expected of it.
    pub fn failed(&self) -> bool {
        self.expectation.is_some_and(|expectation| !expectation.holds())
    }
}

pub struct Timeline {
    pub setup: Setup,
    pub voice: Voice,
    /// How many of a text's expectations hold.
    pub verdict: Option<String>,
    /// Why the run ends before its text does.
    pub stopped: Option<String>,
    /// Step k of the listing is at index k - 1.
    pub steps: Vec<StepView>,
    pub flights: Vec<Flight>,
    pub spans: Vec<Span>,
    lines: Lines,
}

impl Timeline {
    /// Makes the timeline of a run without a text.
    pub fn new(run: &Run) -> Timeline {
        Timeline::of(&run.clone().into())
    }

    pub fn of(scenario: &Scenario) -> Timeline {
        let mut steps = Vec::with_capacity(scenario.run.steps.len());
        let mut flights = Flights::default();
        let (mut spans, mut lines) = (Spans::default(), Lines::default());
        scenario.walk(|moment| {
            flights.follow(moment);
            let now = tracks::of(moment.setup, moment.after);
            spans.follow(moment.number, moment.restored().is_some(), now);
            lines.follow(&moment.step, moment.refused());
            steps.push(StepView::of(scenario, moment));
        });
        let on_line = lines.on_line(steps.len());
        steps.iter_mut().zip(on_line).for_each(|(view, on_line)| view.left = !on_line);
        Timeline {
            setup: scenario.run.setup,
            voice: scenario.voice,
            verdict: scenario.source.as_ref().map(|_| verdict(scenario).words),
            stopped: scenario.source.as_ref().and_then(Source::why_stopped),
            steps,
            flights: flights.all,
            spans: spans.whole(),
            lines,
        }
    }

    /// Returns the step with this number in the listing.
    pub fn step(&self, number: usize) -> &StepView {
        &self.steps[number - 1]
    }

    /// Returns what fixes the latest end of a write. If a return put it there
    /// again, the step that opened it is the last one that did so on its line.
    pub fn cause(&self, write: &Span) -> &Cause {
        let Track::Write(object) = write.track else { unreachable!("a write's span") };
        let mut line = self.lines.back_from(write.from).map(|step| self.step(step));
        let opened = line.find(|view| opens(view, object)).and_then(|view| view.cause.as_ref());
        opened.expect("a step on the line opened the write")
    }

    /// Returns where in a step's column a time lies: from 0, the clock before
    /// it, to 1, the clock that it set. Nothing for a time that the step did
    /// not pass.
    pub fn passed(&self, number: usize, time: u32) -> Option<f64> {
        let view = self.step(number);
        let inside = view.passes_time() && view.clock_before < time && time <= view.clock;
        inside.then(|| f64::from(time - view.clock_before) / f64::from(view.clock - view.clock_before))
    }
}

/// Returns whether the step opened a write of the object.
fn opens(view: &StepView, object: usize) -> bool {
    view.cause.is_some() && usize::from(view.step.object) == object
}

fn message(moment: &Moment) -> Option<Message> {
    let names_one = [DELIVER, LOSE, DOUBLE].contains(&moment.step.kind) && !moment.refused();
    names_one.then(|| moment.before.tables.queue.messages()[usize::from(moment.step.place)])
}
