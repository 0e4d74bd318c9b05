//! The questions after the first, which is `sound` (01, Questions at the gate;
//! 02, A7).

use crate::limits::{
    BAD_TIME, CLOCK_MAX, NAMES, NO_NUMBER_LEFT, NO_SUCH_ITEM, NO_SUCH_NAME, UNKNOWN_KIND, WRITE_STANDS,
};
use crate::step_record::*;
use crate::world::World;

pub trait Gate {
    /// "Asked in order; the first "no" gives its number." For sound tables. 11
    /// comes "after the kind question".
    #[inline(always)]
    fn refusal(&self, world: &World, step: &Step) -> Option<u8> {
        if !self.knows(step.kind) {
            return Some(UNKNOWN_KIND);
        }
        if !self.name_fits(world, step) {
            return Some(NO_SUCH_NAME);
        }
        if !self.items_exist(world, step) {
            return Some(NO_SUCH_ITEM);
        }
        match step.kind {
            CLOCK if !self.time_fits(world.tables.clock, step.clock) => Some(BAD_TIME),
            WRITE if !self.none_stands(world, step.object.into()) => Some(WRITE_STANDS),
            _ if !self.can_grow(world, step) => Some(NO_NUMBER_LEFT),
            _ => None,
        }
    }

    #[inline]
    fn knows(&self, kind: u8) -> bool {
        is_known(kind)
    }

    /// "11 when the name is above 3 or, for a return, was never saved."
    #[inline]
    fn name_fits(&self, world: &World, step: &Step) -> bool {
        let name = usize::from(step.place);
        match step.kind {
            SAVE => name < NAMES,
            RETURN => world.saved.get(name).is_some_and(|state| state.is_some()),
            _ => true,
        }
    }

    /// "Do the dash, object and place it uses exist?" A name is no place.
    #[inline]
    fn items_exist(&self, world: &World, step: &Step) -> bool {
        let client = step.client < world.setup.clients;
        let object = step.object < world.setup.objects;
        match step.kind {
            READ | ASK => client && object,
            WRITE => object,
            DELIVER | LOSE | DOUBLE => usize::from(step.place) < world.tables.queue.len,
            RESTART_CLIENT => client,
            _ => true,
        }
    }

    /// "Is T from the clock to 2,147,483,647?"
    #[inline]
    fn time_fits(&self, clock: u32, time: u32) -> bool {
        (clock..=CLOCK_MAX).contains(&time)
    }

    /// "For a write, is none standing there?"
    #[inline]
    fn none_stands(&self, world: &World, object: usize) -> bool {
        !world.tables.server.stands(object)
    }

    /// "Is the version, every epoch or the next number that must grow below
    /// 4,294,967,295?"
    #[inline]
    fn can_grow(&self, world: &World, step: &Step) -> bool {
        let server = &world.tables.server;
        match step.kind {
            ASK => world.requests[usize::from(step.client)].next < u32::MAX,
            WRITE => server.version[usize::from(step.object)] < u32::MAX,
            RESTART_SERVER => {
                server.epoch[..usize::from(world.setup.volumes)].iter().all(|&epoch| epoch < u32::MAX)
            }
            _ => true,
        }
    }
}

/// "Is the kind 1 to 9?" And "two new step kinds, 10 save and 11 return".
#[inline]
pub fn is_known(kind: u8) -> bool {
    (CLOCK..=RETURN).contains(&kind)
}
