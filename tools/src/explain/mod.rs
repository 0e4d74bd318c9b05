//! One line of words per step: what it was, what was answered, and the part of
//! the model's state that shows why; for a read answered "ask first" the
//! library's reason.

mod delivery;
mod lines;
mod notes;
mod read;
mod refusal;
mod saved;
mod steps;
mod table;
pub mod tables;

use model::answer::Answer;

use crate::listed::Listed;
use crate::scenario::Scenario;
use crate::trace::Moment;
pub use lines::{answered, clock, line, line_of, listing, told, written};

/// Returns the line of one step.
pub fn line_at(scenario: &Scenario, number: usize) -> Option<String> {
    at(scenario, number, |moment| line_of(scenario, moment))
}

/// Returns what `see` makes of one step of a run, if the run has that many.
pub fn at<T>(scenario: &Scenario, number: usize, see: impl Fn(&Moment) -> T) -> Option<T> {
    let mut seen = None;
    scenario.walk(|moment| {
        if moment.number == number {
            seen = Some(see(moment));
        }
    });
    seen
}

/// Returns the listing's two numbers in words.
pub fn answer(answer: &Answer) -> String {
    Listed::of(answer).words()
}

/// Returns the reasons for the answer, in the user's words.
pub fn reasons(moment: &Moment) -> Vec<String> {
    plain_reasons(moment).iter().map(|reason| moment.voice.said(reason)).collect()
}

fn plain_reasons(moment: &Moment) -> Vec<String> {
    use model::step_record::*;
    match (moment.answer, moment.step.kind) {
        (Answer::Refused(number), _) => refusal::reasons(moment, number),
        (Answer::Delivered { message, .. }, _) => delivery::reasons(moment, &message),
        (_, CLOCK) => steps::clock(moment),
        (_, READ) => read::reasons(moment),
        (_, ASK) => steps::ask(moment),
        (_, WRITE) => steps::write(moment),
        (_, LOSE) => steps::lose(moment),
        (_, DOUBLE) => steps::double(moment),
        (_, RESTART_SERVER) => steps::restart_server(moment),
        (_, RESTART_CLIENT) => steps::restart_client(moment),
        (_, SAVE) => saved::save(moment),
        (_, RETURN) => saved::restore(moment),
        _ => Vec::new(),
    }
}
