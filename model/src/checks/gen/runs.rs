//! Whole runs: scenes one after another, or only random steps.

use crate::gen::builder::Builder;
use crate::gen::rng::Rng;
use crate::gen::scenes::{all, calm, reads};
use crate::gen::{notes, random_steps, setups};
use crate::limits::STEPS;
use crate::setup::Setup;
use crate::step_record::Step;
use crate::unchecked_writer::write;

/// A run as its parts.
#[derive(Clone, Debug)]
pub struct Run {
    pub note: Vec<u8>,
    pub setup: Setup,
    pub steps: Vec<Step>,
}

impl Run {
    pub fn file(&self) -> Vec<u8> {
        write(&self.note, &self.setup, &self.steps)
    }
}

/// Returns the run with this number for this seed.
pub fn run(seed: u64, number: usize) -> Run {
    let mut rng = Rng::new(seed.wrapping_mul(0x1_0000_0001).wrapping_add(number as u64));
    let setup = setups::any(&mut rng);
    let mut b = Builder::new(rng, setup);
    match number % 50 {
        0 => fill(&mut b, STEPS),
        1 => random_steps::take(&mut b, STEPS),
        2 | 3 => (),
        4..=9 => random_steps::take(&mut b, 400),
        place => scenes(&mut b, place),
    }
    let note = notes::any(&mut b.rng, b.steps.len());
    Run { note, setup, steps: b.steps }
}

/// Fills a run with the most steps, scenes and random steps in turn.
fn fill(b: &mut Builder, count: usize) {
    while b.steps.len() < count {
        scenes(b, 0);
        random_steps::take(b, 20);
    }
}

/// Adds one to four scenes, some in the disorder left by the last.
fn scenes(b: &mut Builder, place: usize) {
    let scenes = all();
    for _ in 0..b.rng.range(1, 4) {
        let scene = b.rng.pick(&scenes);
        if b.rng.percent(60) {
            calm(b);
        }
        scene(b);
        if place.is_multiple_of(4) {
            random_steps::take(b, 5);
        }
    }
    reads(b);
}
