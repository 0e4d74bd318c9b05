//! Makes runs of one kind of step, in the largest setup.

use std::fmt;

use model::limits::STEPS;
use model::step_record::Step;
use model::unchecked_writer::write;

use crate::files::largest;

pub struct Kind {
    pub name: &'static str,
    /// What the steps do, and with what effect.
    how: &'static str,
    /// The answer and value that the listing has for each step.
    answer: &'static str,
    pub file: Vec<u8>,
}

impl fmt::Display for Kind {
    fn fmt(&self, out: &mut fmt::Formatter) -> fmt::Result {
        write!(out, "{}: {}; all answered {}", self.name, self.how, self.answer)
    }
}

/// Returns runs of the most steps: those of `start`, then `turn` over and over.
pub fn kinds() -> Vec<Kind> {
    let run = |name, how, answer, start: &[Step], turn: &[Step]| {
        let steps: Vec<Step> = start.iter().chain(turn.iter().cycle()).copied().take(STEPS).collect();
        Kind { name, how, answer, file: write(&[], &largest(), &steps) }
    };
    let ask = Step::ask(0, 0);
    vec![
        run("unknown kind", "kind 0, with fields of 0", "4 2", &[], &[Step::default()]),
        run(
            "clock",
            "to 1, where notes age, with no notes and no write standing",
            "0 0",
            &[],
            &[Step::clock(1)],
        ),
        run("read", "of an object that the client does not hold", "2 0", &[], &[Step::read(0, 0)]),
        run("ask, list full", "the first 64 RENEWs fill the list, all others are lost", "0 0", &[], &[ask]),
        run("write", "of an object that no client holds", "3 1", &[], &[Step::write(0, 7)]),
        run(
            "ask, deliver",
            "in turn, from the front: each RENEW brings an OFFER, too late, and the list is soon full",
            "0 0",
            &[],
            &[ask, Step::deliver(0)],
        ),
        run("ask, lose", "in turn, the RENEW just sent", "0 0", &[], &[ask, Step::lose(0)]),
        run(
            "double, list full",
            "after one ask 63 copies fill the list, all others are lost",
            "0 0",
            &[ask],
            &[Step::double(0)],
        ),
        run("restart server", "with no write standing", "0 0", &[], &[Step::restart_server()]),
        run("restart client", "with no copy held", "0 0", &[], &[Step::restart_client(0)]),
        run("save", "under one name, over and over", "0 0", &[], &[Step::save(0)]),
        run("return", "to what the first step saved", "0 0", &[Step::save(0)], &[Step::return_to(0)]),
    ]
}

#[cfg(test)]
mod tests {
    use super::*;
    use model::gen::builder::{Builder, OFFER, RENEW};
    use model::gen::rng::Rng;
    use model::limits::QUEUE;
    use model::listing::listing;
    use model::message::Message;
    use model::runfile::parts;

    #[test]
    fn all_steps_are_answered_as_described() {
        for kind in kinds() {
            let lines = String::from_utf8(listing(&kind.file)).expect("a listing is text");
            let answers = lines.lines().skip(1).map(|line| line.split_once(' ').expect("a number first").1);
            assert_eq!(answers.filter(|answer| *answer == kind.answer).count(), STEPS, "{kind}");
        }
    }

    #[test]
    fn as_many_messages_are_under_way_as_described() {
        for kind in kinds() {
            let (mut builder, steps) =
                (Builder::new(Rng::new(1), largest()), parts(&kind.file).unwrap().steps());
            for (taken, step) in (1..).zip(steps) {
                builder.push(step);
                let described = match kind.name {
                    "ask, list full" | "double, list full" => taken.min(QUEUE)..=taken.min(QUEUE),
                    "ask, deliver" if taken > 210 => QUEUE - 1..=QUEUE,
                    "ask, deliver" => 1..=QUEUE,
                    "ask, lose" => taken % 2..=taken % 2,
                    _ => 0..=0,
                };
                assert!(described.contains(&builder.queue_len()), "{kind}: step {taken}");
                let known = |message: &Message| [RENEW, OFFER].contains(&message.kind.code());
                assert!(builder.tables().queue.messages().iter().all(known), "{kind}: step {taken}");
            }
        }
    }
}
