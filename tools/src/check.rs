//! Checks a text's expectations against the answers of the proved library.

use crate::explain::{answered, clock, written};
use crate::scenario::Scenario;
use crate::trace::Moment;

pub struct Verdict {
    /// How many hold, in words.
    pub words: String,
    /// Each expectation that fails, in words.
    pub failures: Vec<String>,
}

impl Verdict {
    pub fn holds(&self) -> bool {
        self.failures.is_empty()
    }
}

pub fn verdict(scenario: &Scenario) -> Verdict {
    let mut failures = Vec::new();
    scenario.walk(|moment| failures.extend(failure(scenario, moment)));
    Verdict { words: counted(scenario, failures.len()), failures }
}

/// Returns how many expectations hold or fail. If the text stops halfway, the
/// rest were not reached.
fn counted(scenario: &Scenario, failed: usize) -> String {
    let all = scenario.source.iter().flat_map(|source| &source.lines);
    let count = all.filter(|line| line.expected.is_some()).count();
    let reached = scenario.expectations().count();
    let stopped = scenario.stopped().map(|trouble| format!("stopped at line {}", trouble.line));
    let words = match (count, failed, &stopped) {
        (0, _, _) => "no expectations".into(),
        (1, 0, None) => "the 1 expectation holds".into(),
        (_, 0, None) => format!("all {count} expectations hold"),
        (_, 0, Some(_)) => format!("{reached} of {count} expectations held"),
        _ => format!("{failed} of {count} expectations failed"),
    };
    let missed = (reached < count).then(|| format!("{} not reached", count - reached));
    [Some(words), missed, stopped].into_iter().flatten().collect::<Vec<_>>().join(", ")
}

/// Returns, if the step's expectation failed, its line in the text, the clock,
/// what was written there, and why the answer differs.
fn failure(scenario: &Scenario, moment: &Moment) -> Option<String> {
    let step = moment.number;
    let failed = scenario.expectation(step).filter(|expectation| !expectation.holds())?;
    let line = scenario.line(step)?;
    let (clock, written, answered) = (clock(moment), written(line, moment), answered(moment, Some(failed)));
    Some(format!("line {}, step {step}, {clock}, {written}: {answered}", line.number))
}
