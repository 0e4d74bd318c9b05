//! Demand 3 without the list of 64: a network on which every message ever sent
//! may arrive at any time, any number of times, in any order, or never.

#[path = "../common/mod.rs"]
mod common;

mod crowded;
mod found;
mod network;
mod premises;
mod random_moves;
mod random_runs;
mod replayed;
mod scenes;
mod scenes_answers;
mod scenes_notes;
mod scenes_requests;
mod scenes_traps;
mod stage;
mod under_way;
mod watched;

use common::ledger;
