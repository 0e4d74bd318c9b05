//! What a text says, line by line, and the exact steps that it stands for.

use model::gen::runs::Run;
use model::setup::Setup;
use model::step_record::Step;

use super::actions::{self, Action};
use super::words::Trouble;
use super::writer::Writer;
use super::{canonical, expected};
use crate::listed::Listed;
use crate::voice::Voice;

pub struct Script {
    pub note: Vec<u8>,
    pub setup: Setup,
    pub voice: Voice,
    pub lines: Vec<Line>,
    /// Comments among the note and setup, on lines of their own.
    pub opening: Vec<String>,
    /// Comments after the last step.
    pub ending: Vec<String>,
}

/// A line of the text that stands for steps.
#[derive(Clone, Debug)]
pub struct Line {
    /// The line's number in the text, from 1.
    pub number: usize,
    pub action: Action,
    pub expected: Option<Listed>,
    /// What is written there, without the expectation and the comment.
    pub written: String,
    /// The comments on the lines before it, without their `#`.
    pub before: Vec<String>,
    /// The comment at the end of the line.
    pub behind: Option<String>,
}

/// A run with what its text says about each step.
pub struct WrittenOut {
    pub run: Run,
    pub steps: Vec<Written>,
    /// Why the run ends before its text does.
    pub stopped: Option<Trouble>,
}

/// A step of a run made from a text.
pub struct Written {
    pub step: Step,
    /// The index of its line in the script.
    pub line: usize,
    pub expected: Option<Listed>,
    /// The model's answer.
    pub answer: Listed,
}

impl Script {
    /// Returns the text in canonical form.
    pub fn print(&self) -> String {
        let line = |line: &Line| actions::line(&line.action) + &expected::suffix(&line.expected);
        canonical(&self.note, &self.setup, self.voice.tick, self.lines.iter().map(line))
    }

    /// Writes every line out as steps, up to the first one that cannot be.
    pub fn as_far_as_it_goes(&self) -> WrittenOut {
        let mut writer = Writer::new(&self.setup, self.voice, self.note.len());
        let stopped = self.lines.iter().enumerate().find_map(|(place, line)| {
            let wrong = writer.write(place, line).err()?;
            Some(Trouble { line: line.number, wrong }.said(self.voice.words))
        });
        let steps = writer.steps;
        let run = Run {
            note: self.note.clone(),
            setup: self.setup,
            steps: steps.iter().map(|written| written.step).collect(),
        };
        WrittenOut { run, steps, stopped }
    }

    /// Writes every line out as steps, or returns what is wrong with the first
    /// one that cannot be.
    pub fn written_out(&self) -> Result<WrittenOut, Trouble> {
        let mut written = self.as_far_as_it_goes();
        written.stopped.take().map_or(Ok(written), Err)
    }

    /// Returns the text in canonical form, with each step as the run file has
    /// it.
    pub fn expanded(&self, written: &WrittenOut) -> String {
        let line = |written: &Written| {
            actions::line(&Action::Step(written.step)) + &expected::suffix(&written.expected)
        };
        canonical(&self.note, &self.setup, self.voice.tick, written.steps.iter().map(line))
    }
}
