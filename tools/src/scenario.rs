//! A run to show, with what its text says about each step. A run file has the
//! run only.

use std::ops::RangeInclusive;

use model::gen::runs::Run;

use crate::listed::Listed;
use crate::proved;
use crate::text::actions::Action;
use crate::text::script::{Line, Script, WrittenOut};
use crate::text::words::Trouble;
use crate::trace::{walk_in, Moment};
use crate::voice::Voice;

pub struct Scenario {
    pub run: Run,
    pub voice: Voice,
    /// The text; nothing for a run file.
    pub source: Option<Source>,
}

/// The text that a run was made from.
pub struct Source {
    /// Comments among the note and setup.
    pub opening: Vec<String>,
    /// The lines that stand for steps, including those after the line where the
    /// run stops.
    pub lines: Vec<Line>,
    /// Comments after the last step.
    pub ending: Vec<String>,
    /// Where each step of the run comes from; step k is at index k - 1.
    pub steps: Vec<Origin>,
    /// Why the run ends before its text does, in the user's words.
    pub stopped: Option<Trouble>,
}

/// Where a step comes from.
#[derive(Clone, Copy, Debug)]
pub struct Origin {
    /// The index of its line in `lines`. All steps of a join have the same.
    pub line: usize,
    pub expectation: Option<Expectation>,
}

/// What the text expects of a step, and what the proved library answers.
#[derive(Clone, Copy, Debug, PartialEq, Eq)]
pub struct Expectation {
    pub expected: Listed,
    pub found: Listed,
}

impl Expectation {
    pub fn holds(&self) -> bool {
        self.expected == self.found
    }

    /// Returns the answer with what was expected.
    pub fn words(&self) -> String {
        let (expected, found) = (self.expected.words(), self.found.words());
        match self.holds() {
            true => format!("{found}, as expected"),
            false => format!("FAILED: expected {expected}, found {found}"),
        }
    }
}

impl Source {
    /// Returns why the run ends before its text does, and the line where.
    pub fn stopped_at(&self) -> Option<(&Trouble, &Line)> {
        let trouble = self.stopped.as_ref()?;
        let line = self.lines.iter().find(|line| line.number == trouble.line)?;
        Some((trouble, line))
    }

    /// Returns the same in words, for the end of the output.
    pub fn why_stopped(&self) -> Option<String> {
        let (trouble, line) = self.stopped_at()?;
        Some(format!("stopped at {}", trouble.at(&line.written)))
    }

    /// Returns the comments after the last step. If the text stops, these are
    /// the ones before the line where it does, unless one of that line's steps
    /// was taken.
    pub fn closing(&self) -> &[String] {
        let last = self.steps.last().map(|last| self.lines[last.line].number);
        match self.stopped_at() {
            None => &self.ending,
            Some((_, line)) if last == Some(line.number) => &[],
            Some((_, line)) => &line.before,
        }
    }
}

impl From<Run> for Scenario {
    fn from(run: Run) -> Scenario {
        Scenario { run, voice: Voice::default(), source: None }
    }
}

impl From<Script> for Scenario {
    fn from(script: Script) -> Scenario {
        let WrittenOut { run, steps, stopped } = script.as_far_as_it_goes();
        let origins = steps.iter().zip(proved::answers(&run)).map(|(step, found)| Origin {
            line: step.line,
            expectation: step.expected.map(|expected| Expectation { expected, found }),
        });
        let steps = origins.collect();
        let Script { voice, lines, opening, ending, .. } = script;
        Scenario { run, voice, source: Some(Source { opening, lines, ending, steps, stopped }) }
    }
}

impl Scenario {
    /// Calls `each` for every step of the run, in the user's voice.
    pub fn walk(&self, each: impl FnMut(&Moment)) {
        walk_in(&self.run, self.voice, each);
    }

    /// Returns the line of the text that this step comes from.
    pub fn line(&self, step: usize) -> Option<&Line> {
        let source = self.source.as_ref()?;
        Some(&source.lines[source.steps[step - 1].line])
    }

    pub fn expectation(&self, step: usize) -> Option<Expectation> {
        self.source.as_ref()?.steps[step - 1].expectation
    }

    /// Returns the steps that come from the same line: several for a join.
    pub fn together(&self, step: usize) -> RangeInclusive<usize> {
        let Some(Source { steps, .. }) = &self.source else {
            return step..=step;
        };
        let own = steps[step - 1].line;
        let before = steps.partition_point(|origin| origin.line < own);
        before + 1..=steps.partition_point(|origin| origin.line <= own)
    }

    /// Returns whether the step is one of a join.
    pub fn joins(&self, step: usize) -> bool {
        matches!(self.line(step).map(|line| line.action), Some(Action::Join { .. }))
    }

    /// Returns each step with an expectation.
    pub fn expectations(&self) -> impl Iterator<Item = (usize, Expectation)> + '_ {
        (1..=self.run.steps.len()).filter_map(|step| Some((step, self.expectation(step)?)))
    }

    /// Returns why the run ends before its text does.
    pub fn stopped(&self) -> Option<&Trouble> {
        self.source.as_ref()?.stopped.as_ref()
    }
}
