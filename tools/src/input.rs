//! Reads a command's input, standard input or a file, and the run in it.

use std::fmt::Display;
use std::fs::File;
use std::io::{self, Read};

use model::gen::runs::Run;
use model::runfile::Fault;

use crate::check::verdict;
use crate::command::Failure;
use crate::output::Output;
use crate::refused_file;
use crate::scenario::Scenario;
use crate::text;
use crate::text::script::{Script, WrittenOut};
use crate::text::words::Trouble;

/// Anything longer is neither a run nor a text, whatever its comments.
const MOST: u64 = 1 << 24;

/// The most lines of an error message.
const TOLD: usize = 20;

pub struct Input {
    /// The file's name, shown before messages about it.
    name: Option<String>,
    pub bytes: Vec<u8>,
}

impl Input {
    /// Reads the file of this name, or standard input for none or `-`.
    pub fn read(file: Option<&str>) -> Result<Input, Failure> {
        let name = file.filter(|&name| name != "-").map(String::from);
        let read = match &name {
            None => whole(io::stdin().lock()),
            Some(name) => File::open(name).and_then(whole),
        };
        match read {
            Ok(bytes) => Ok(Input { name, bytes }),
            Err(error) => {
                let name = name.as_deref().unwrap_or("standard input");
                Err(Failure::Input(format!("cannot read {name}: {error}")))
            }
        }
    }

    pub fn name(&self) -> &str {
        self.name.as_deref().unwrap_or("standard input")
    }

    /// Returns the line with the file's name before it.
    pub fn named(&self, line: impl Display) -> String {
        match &self.name {
            None => line.to_string(),
            Some(name) => format!("{name}: {line}"),
        }
    }

    /// Returns a failure with these lines, each with the file's name.
    pub fn failure(&self, lines: &[String]) -> Failure {
        Failure::Input(lines.iter().map(|line| self.named(line)).collect::<Vec<_>>().join("\n"))
    }

    /// Returns the failure for a step that the run does not have, with the
    /// reason if its text stops early.
    pub fn too_short(&self, scenario: &Scenario, wanted: String) -> Failure {
        let reason = scenario.stopped().map(Trouble::to_string);
        self.failure(&[Some(wanted), reason].into_iter().flatten().collect::<Vec<_>>())
    }

    /// Adds what is wrong with the run's text to an output: failed
    /// expectations, and where it stopped. Only a text that stops is a wrong
    /// input.
    pub fn told_of(&self, scenario: &Scenario, mut output: Output) -> Output {
        let verdict = verdict(scenario);
        if !verdict.holds() {
            output.told.push(self.named(verdict.words));
        }
        if let Some(trouble) = scenario.stopped() {
            output.told.push(self.named(trouble));
            output.holds = false;
        }
        output
    }

    /// Returns the run of a run file.
    pub fn run_of_file(&self) -> Result<Run, Failure> {
        text::from_file(&self.bytes).map_err(|fault| self.failure(&[refused_file::told(&fault)]))
    }

    /// Returns what a text says.
    pub fn script(&self) -> Result<Script, Failure> {
        text::script(&self.bytes).map_err(|troubles| self.failure(&told(&troubles)))
    }

    /// Returns note and setup of a text without steps.
    pub fn without_steps(&self) -> Result<Script, Failure> {
        text::without_steps(&self.bytes).map_err(|troubles| self.failure(&told(&troubles)))
    }

    /// Returns what a text says as exact steps.
    pub fn written_out(&self, script: &Script) -> Result<WrittenOut, Failure> {
        script.written_out().map_err(|trouble| self.failure(&[trouble.to_string()]))
    }

    /// Returns what a run file or a text has to show, for a text that stops
    /// halfway the run up to there. The two are told apart by a zero byte:
    /// every accepted run file has one in its setup, and no text has any.
    pub fn scenario(&self) -> Result<Scenario, Failure> {
        self.scenario_or_fault()?.map_err(|fault| self.failure(&[refused_file::told(&fault)]))
    }

    /// Does the same, but returns the fault of a refused run file instead of
    /// failing.
    pub fn scenario_or_fault(&self) -> Result<Result<Scenario, Fault>, Failure> {
        if self.bytes.contains(&0) {
            Ok(text::from_file(&self.bytes).map(Scenario::from))
        } else {
            Ok(Ok(self.script()?.into()))
        }
    }
}

fn whole(input: impl Read) -> io::Result<Vec<u8>> {
    let mut bytes = Vec::new();
    input.take(MOST + 1).read_to_end(&mut bytes)?;
    if bytes.len() as u64 > MOST {
        return Err(io::Error::other(format!("it is longer than {MOST} bytes")));
    }
    Ok(bytes)
}

fn told(troubles: &[Trouble]) -> Vec<String> {
    let mut lines: Vec<String> = troubles.iter().take(TOLD).map(Trouble::to_string).collect();
    if troubles.len() > TOLD {
        lines.push(format!("and {} bad lines more", troubles.len() - TOLD));
    }
    lines
}
