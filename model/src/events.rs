//! What happened last to each client's copy of each object, in the line of
//! steps to the present state and in those to the saved ones (02, A8).

use crate::answer::Answer;
use crate::copies::ObjectCopy;
use crate::limits::NAMES;
use crate::requests::Request;
use crate::setup::Setup;
use crate::step_record::Step;
use crate::world::World;

/// An "erasing or granting event", by what it came from.
#[derive(Clone, Copy, Debug, PartialEq, Eq)]
pub enum Cause {
    Grant,
    Invalidate,
    Offer,
    Batch,
    Restart,
}

/// An event and the number of its step, from 1 as in the listing.
#[derive(Clone, Copy, Debug, PartialEq, Eq)]
pub struct Event {
    pub cause: Cause,
    pub step: u32,
}

/// The last event of each copy along one line of steps, client by client in
/// object order.
#[derive(Clone, Debug, PartialEq, Eq)]
pub struct Line {
    pub last: Vec<Option<Event>>,
    /// How many steps the line has. No rule asks this, but a mistake does.
    pub length: u32,
}

/// The line to the present state, and those to the four saved ones.
#[derive(Clone, Debug, PartialEq, Eq)]
pub struct Lines {
    pub present: Line,
    pub saved: [Option<Line>; NAMES],
}

impl Lines {
    /// Returns the lines of fresh tables: no event, and nothing saved.
    pub fn fresh(setup: &Setup) -> Lines {
        let present = Line { last: vec![None; setup.copy_count()], length: 0 };
        Lines { present, saved: [const { None }; NAMES] }
    }
}

/// What the clients had before a step.
pub struct Before {
    pub copies: Vec<ObjectCopy>,
    pub requests: Vec<Request>,
}

impl Before {
    pub fn of(world: &World) -> Before {
        Before { copies: world.copies.to_vec(), requests: world.requests.to_vec() }
    }
}

/// A step that was taken, with what the clients had before it and everything as
/// it is after it.
pub struct Taken<'a> {
    /// The step's number in the listing.
    pub number: u32,
    pub step: &'a Step,
    pub answer: Answer,
    pub before: &'a Before,
    pub world: &'a World<'a>,
}

impl Taken<'_> {
    /// Returns the copy before the step and after it.
    pub fn copy(&self, client: usize, object: usize) -> (&ObjectCopy, &ObjectCopy) {
        let place = self.world.setup.copy_place(client, object);
        (&self.before.copies[place], &self.world.copies[place])
    }
}
