//! A run with the values that its completed writes posted.

use model::answer::Answer;
use model::bits::members;
use model::limits::{CLOCK_MAX, OBJECTS};
use model::mistakes::Mistakes;
use model::setup::Setup;
use model::state::{Saved, State};
use model::step_record::*;
use model::until_shown::{until_shown, Ending};
use model::world::World;

/// A run whose posted values are followed by its steps and by which writes
/// stand, never by the server's values, so that a read can be checked against
/// them.
#[derive(Clone, Copy)]
pub struct Followed {
    pub rules: Mistakes,
    pub setup: Setup,
    pub state: State,
    pub posted: [u64; OBJECTS],
    /// The set of clients that have restarted.
    pub restarted: u16,
    /// The set of objects with an open write, and its value.
    open: u32,
    written: [u64; OBJECTS],
}

/// What had to be done to a state to make it quiet.
#[derive(Clone, Copy, Debug, PartialEq, Eq)]
pub enum Quieted {
    AsItWas,
    MessagesLost,
    WritesEnded,
}

impl Followed {
    pub fn fresh(rules: Mistakes, setup: Setup) -> Followed {
        let none = [0; OBJECTS];
        Followed { rules, setup, state: State::fresh(), posted: none, restarted: 0, open: 0, written: none }
    }

    /// Takes a step, with nothing saved: `Line` saves and returns.
    pub fn step(&mut self, step: &Step) -> Answer {
        let mut saved = Saved::default();
        let answer = self.rules.step(&mut World::new(&self.setup, &mut self.state, &mut saved), step);
        if !matches!(answer, Answer::Refused(_)) {
            self.follow(step);
        }
        answer
    }

    /// Follows a step. A write that no longer stands has completed, unless a
    /// restart of the server cut it off (01, The ledger of a run).
    fn follow(&mut self, step: &Step) {
        match step.kind {
            WRITE => {
                self.open |= 1 << step.object;
                self.written[usize::from(step.object)] = step.value;
            }
            RESTART_SERVER => self.open = 0,
            RESTART_CLIENT => self.restarted |= 1 << step.client,
            _ => (),
        }
        let completed = self.open & !self.state.tables.server.standing;
        members(completed).for_each(|object| self.posted[object] = self.written[object]);
        self.open &= !completed;
    }

    /// Goes on to a state without messages and without a write in the object's
    /// volume: what is under way is lost, and the clock passes the latest ends.
    /// These are steps like others, so the state is reachable, too.
    pub fn quieten(&mut self, object: u8) -> Quieted {
        let mut quieted = Quieted::AsItWas;
        while let Some(last) = self.state.tables.queue.len.checked_sub(1) {
            self.step(&Step::lose(last as u8));
            quieted = Quieted::MessagesLost;
        }
        if let Some(end) = self.latest_end(object) {
            self.step(&Step::clock(end.saturating_add(1).min(CLOCK_MAX)));
            quieted = Quieted::WritesEnded;
        }
        quieted
    }

    /// Returns the latest end of the writes that stand in the object's volume.
    fn latest_end(&self, object: u8) -> Option<u32> {
        let (setup, server) = (&self.setup, &self.state.tables.server);
        let volume = setup.volume(object.into());
        let here = members(server.standing & setup.all_objects()).filter(|&at| setup.volume(at) == volume);
        here.map(|at| server.write[at].latest_end).max()
    }

    /// Returns the steps that 02 claims and how it ended, if its premises hold.
    /// The run itself stays where it is.
    pub fn until_shown(&self, client: u8, object: u8) -> Option<(u32, Ending)> {
        let (mut state, mut saved) = (self.state, Saved::default());
        let mut world = World::new(&self.setup, &mut state, &mut saved);
        let claimed = world.until_shown_claim(client, object);
        let premises = world.until_shown_premises(client, object);
        premises.then(|| (claimed, until_shown(self.rules, &mut world, client, object)))
    }
}
