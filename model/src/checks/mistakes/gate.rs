//! Mistakes in questions 3 to 5.

use crate::limits::{CLOCK_MAX, QUEUE};
use crate::rules::Papers;
use crate::step_record::{Step, DOUBLE};
use crate::world::World;

mistakes_about! { Gate:
    /// Refuses to double in a full list.
    full_refuses_double {
        fn items_exist(&self, world: &World, step: &Step) -> bool {
            let refused = step.kind == DOUBLE && world.tables.queue.len == QUEUE;
            Papers.items_exist(world, step) && !refused
        }
    }

    /// Refuses a clock step to the same time.
    same_time_refused {
        fn time_fits(&self, clock: u32, time: u32) -> bool {
            Papers.time_fits(clock, time) && time != clock
        }
    }

    /// Accepts a clock step back.
    time_goes_back {
        fn time_fits(&self, _: u32, time: u32) -> bool {
            time <= CLOCK_MAX
        }
    }

    /// Lets a second write replace the standing one.
    second_write_replaces {
        fn none_stands(&self, _: &World, _: usize) -> bool {
            true
        }
    }
}
