//! GRANTs without a value under way, in the states that runs reach.

use std::ops::ControlFlow;

use model::copies::ObjectCopy;
use model::gen::runs::Run;
use model::message::{Grant, Kind, Message};
use model::mistakes::{former::names_held_version, Mistakes};
use model::requests::Request;
use model::setup::Setup;
use model::state::{Machine, Saved, State};
use model::step_record::Step;
use model::world::World;

pub struct Met<'a> {
    pub setup: &'a Setup,
    pub state: &'a State,
    pub place: usize,
    pub client: usize,
    pub grant: Grant,
}

impl Met<'_> {
    pub fn request(&self) -> &Request {
        &self.state.requests(self.setup)[self.client]
    }

    /// Returns whether it answers the standing request.
    pub fn stands(&self) -> bool {
        self.request().waits_for(self.grant.number)
    }

    /// Returns what the client holds of the object.
    pub fn copy(&self) -> &ObjectCopy {
        &self.state.copies(self.setup)[self.setup.copy_place(self.client, self.grant.object.into())]
    }

    /// Returns whether what 02 says about it holds, if its number stands.
    pub fn meets_its_version(&self) -> bool {
        self.copy().version != 0 && names_held_version(&self.grant, self.copy())
    }

    /// Returns what its delivery leaves. The run itself stays where it is.
    pub fn delivered(&self, rules: Mistakes) -> State {
        let mut state = *self.state;
        let mut saved = Saved::default();
        let mut world = World::new(self.setup, &mut state, &mut saved);
        rules.step(&mut world, &Step::deliver(self.place as u8));
        state
    }
}

/// Calls `each` for all of them, after every step of the run.
pub fn along(rules: Mistakes, run: &Run, mut each: impl FnMut(&Met) -> ControlFlow<()>) -> ControlFlow<()> {
    let mut machine = Machine::fresh();
    for step in &run.steps {
        rules.step(&mut machine.world(&run.setup), step);
        under_way(&run.setup, &machine.state).try_for_each(|met| each(&met))?;
    }
    ControlFlow::Continue(())
}

fn under_way<'a>(setup: &'a Setup, state: &'a State) -> impl Iterator<Item = Met<'a>> {
    let places = state.tables.queue.messages().iter().enumerate();
    places.filter_map(move |(place, message)| match *message {
        Message { client, kind: Kind::Grant(grant) } if grant.value.is_none() => {
            Some(Met { setup, state, place, client: client.into(), grant })
        }
        _ => None,
    })
}
