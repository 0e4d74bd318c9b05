//! Run files by seed: the same seed gives the same files.

pub mod builder;
pub mod damage;
pub mod lent_setups;
pub mod notes;
pub mod random_steps;
pub mod rng;
pub mod runs;
pub mod scenes;
pub mod scenes_answers;
pub mod scenes_grants;
pub mod scenes_latest_end;
pub mod scenes_leases;
pub mod scenes_marks;
pub mod scenes_parked;
pub mod scenes_queue;
pub mod scenes_reasons;
pub mod scenes_restart;
pub mod scenes_saved;
pub mod scenes_writes;
pub mod setups;
pub mod workload_calls;
pub mod writer_calls;
