//! The text form of a run: notes, setup, then one step per line.

pub mod actions;
pub mod expected;
mod file;
pub mod note;
pub mod reader;
pub mod script;
pub mod setup;
pub mod steps;
pub mod which;
pub mod words;
mod writer;

use std::fmt::Write;

use model::gen::runs::Run;
use model::setup::Setup;

use crate::tick::Tick;

pub use file::{from_file, to_file, workload_file};
pub use reader::{script, without_steps};
use words::Trouble;

/// Returns the run of a text, or what is wrong with its lines.
pub fn parse(text: &[u8]) -> Result<Run, Vec<Trouble>> {
    let written = script(text)?.written_out().map_err(|trouble| vec![trouble])?;
    Ok(written.run)
}

/// Returns the run in canonical form: the one text for each run.
pub fn print(run: &Run) -> String {
    canonical(&run.note, &run.setup, None, run.steps.iter().map(steps::line))
}

/// Returns the parts of a text in canonical form. The length of a tick follows
/// the setup.
fn canonical(
    note: &[u8],
    setup: &Setup,
    tick: Option<Tick>,
    steps: impl ExactSizeIterator<Item = String>,
) -> String {
    let mut text = String::new();
    let gap = (steps.len() > 0).then(String::new);
    let setup = setup::lines(setup).into_iter().chain(tick.map(|tick| tick.line()));
    for line in note::lines(note).into_iter().chain(setup).chain(gap).chain(steps) {
        writeln!(text, "{line}").expect("a string takes every line");
    }
    text
}
