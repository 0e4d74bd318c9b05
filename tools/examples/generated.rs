//! Writes the run file of a generated run with this many steps, and with the
//! most clients and objects: `cargo run --example generated -- 200 > run.run`.
//! The checks of the page filter by client 7, so its first steps have that one.

use std::io::{self, Write};

use model::gen::builder::Builder;
use model::gen::rng::Rng;
use model::gen::runs::Run;
use model::gen::{random_steps, scenes, setups};
use model::limits::OBJECTS;
use model::setup::Setup;
use model::step_record::{Step, ASK, READ};
use tools::text::to_file;

fn main() -> io::Result<()> {
    let count = std::env::args().nth(1).and_then(|count| count.parse().ok()).unwrap_or(200);
    let mut setup = setups::sized(16, 8, OBJECTS as u8);
    for object in 0..OBJECTS {
        setup.volume_of[object] = (object % 8) as u8;
    }
    let steps = (1..).map(|seed| steps(seed, setup, count)).find(|steps| shows_client_7(steps));
    let steps = steps.expect("a run with client 7");
    let note = format!("generated, {count} steps").into_bytes();
    io::stdout().write_all(&to_file(&Run { note, setup, steps }))
}

/// Returns whether client 7 asks and then reads several times in the first
/// steps.
fn shows_client_7(steps: &[Step]) -> bool {
    let count = |kind| steps.iter().take(20).filter(|step| (step.kind, step.client) == (kind, 7)).count();
    count(ASK) >= 2 && count(READ) >= 2
}

/// Returns scenes, every other one left behind.
fn steps(seed: u64, setup: Setup, count: usize) -> Vec<Step> {
    let (mut b, mut left) = (Builder::new(Rng::new(seed), setup), true);
    while b.steps.len() < count {
        scenes::calm(&mut b);
        b.push(Step::save(0));
        let scene = b.rng.pick(&scenes::all());
        scene(&mut b);
        random_steps::take(&mut b, 5);
        if left {
            b.push(Step::return_to(0));
        }
        left = !left;
        scenes::reads(&mut b);
    }
    b.steps.truncate(count);
    b.steps
}
