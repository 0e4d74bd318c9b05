//! Trials of the claim in a generated run.

use std::ops::ControlFlow;

use model::answer::Answer;
use model::copies::ObjectCopy;
use model::gen::rng::Rng;
use model::gen::runs::run;
use model::mistakes::Mistakes;
use model::step_record::{ASK, READ};
use model::until_shown::Ending;

use crate::common::line::Line;
use crate::followed::{Followed, Quieted};

/// As in the other tests of generated runs.
const SEED: u64 = 1;

/// A client asks for an object, from a state made quiet.
pub struct Trial<'a> {
    pub from: &'a Followed,
    pub quieted: Quieted,
    pub client: u8,
    pub object: u8,
    /// The asks and deliveries that 02 allows it.
    pub claimed: u32,
    pub ending: Ending,
}

/// How the claim is broken; the first of these that applies.
#[derive(Clone, Copy, Debug, PartialEq, Eq)]
pub enum Breach {
    Refused(u8),
    NotShown,
    Steps { claimed: u32, taken: u32 },
    MessagesLeft(usize),
    Value { posted: u64, shown: u64 },
}

impl Trial<'_> {
    pub fn volume(&self) -> usize {
        self.from.setup.volume(self.object.into())
    }

    /// Returns what the client holds before it asks.
    pub fn copy(&self) -> &ObjectCopy {
        let setup = &self.from.setup;
        &self.from.state.copies(setup)[setup.copy_place(self.client.into(), self.object.into())]
    }

    /// Returns how the claim is broken. Stricter than 02's "at most": there
    /// must be as many steps as claimed, so that a claim with steps to spare is
    /// noticed, too.
    pub fn breach(&self) -> Option<Breach> {
        let Ending { steps: taken, refused, messages, read, .. } = self.ending;
        let (claimed, posted) = (self.claimed, self.from.posted[usize::from(self.object)]);
        match read {
            _ if refused.is_some() => refused.map(Breach::Refused),
            Answer::Shown(_) if taken != claimed => Some(Breach::Steps { claimed, taken }),
            Answer::Shown(_) if messages > 0 => Some(Breach::MessagesLeft(messages)),
            Answer::Shown(shown) => (shown != posted).then_some(Breach::Value { posted, shown }),
            _ => Some(Breach::NotShown),
        }
    }
}

/// Tries in the run of this number: after each step that changes anything, the
/// client that asked last, for that object, and a random one; at the end every
/// client for every object.
pub fn along<B>(
    rules: Mistakes,
    number: usize,
    mut each: impl FnMut(&Trial) -> ControlFlow<B>,
) -> ControlFlow<B> {
    let run = run(SEED, number);
    let (clients, objects) = (run.setup.clients, run.setup.objects);
    let mut line = Line::new(Followed::fresh(rules, run.setup));
    let (mut rng, mut asked) = (Rng::new(number as u64), (0, 0));
    for step in &run.steps {
        match (step.kind, line.step(step, |at| at.step(step))) {
            (READ, _) | (_, Answer::Refused(_)) => continue,
            (ASK, _) => asked = (step.client, step.object),
            _ => (),
        }
        let other = (rng.below(clients.into()) as u8, rng.below(objects.into()) as u8);
        attempt(&line.at, asked, &mut each)?;
        attempt(&line.at, other, &mut each)?;
    }
    let mut all = (0..clients).flat_map(|client| (0..objects).map(move |object| (client, object)));
    all.try_for_each(|pair| attempt(&line.at, pair, &mut each))
}

/// Makes one trial. The premises do not hold if a write ends past the last
/// clock.
fn attempt<B>(
    at: &Followed,
    (client, object): (u8, u8),
    each: &mut impl FnMut(&Trial) -> ControlFlow<B>,
) -> ControlFlow<B> {
    let mut from = *at;
    let quieted = from.quieten(object);
    match from.until_shown(client, object) {
        Some((claimed, ending)) => each(&Trial { from: &from, quieted, client, object, claimed, ending }),
        None => ControlFlow::Continue(()),
    }
}
