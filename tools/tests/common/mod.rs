//! The examples' files, runs with saved states, and programs run on bytes.
#![allow(dead_code)]

use std::fs;
use std::io::Write;
use std::path::{Path, PathBuf};
use std::process::{Command, Stdio};

use model::gen::rng::Rng;
use model::gen::runs::Run;
use model::limits::{FILE_BYTES, STEPS};
use model::runfile::distance;
use model::step_record::Step;

/// The setup of a text: two clients and two objects of one volume.
pub const SETUP: &str = "\
clients 2 volumes 1 objects 2
volume lease 10 object lease 100 timeout 3
delay 1
volume 0 objects 0 1
";

pub fn example_path(name: &str) -> PathBuf {
    Path::new(env!("CARGO_MANIFEST_DIR")).join("../examples").join(name)
}

pub fn example(name: &str) -> Vec<u8> {
    fs::read(example_path(name)).unwrap_or_else(|error| panic!("{name}: {error}"))
}

/// Returns the run with saves and returns among its steps, some with a name that
/// is not there.
pub fn with_returns(mut run: Run) -> Run {
    let mut rng = Rng::new(run.steps.len() as u64);
    let mut steps = Vec::new();
    for step in run.steps {
        steps.push(step);
        let name = rng.pick(&[0, 0, 0, 1, 1, 2, 3, 4]);
        steps.extend(match rng.below(20) {
            0 | 1 => Some(Step::save(name)),
            2 => Some(Step::return_to(name)),
            _ => None,
        });
    }
    steps.truncate(STEPS);
    run.note.truncate(FILE_BYTES - distance(steps.len()));
    run.steps = steps;
    run
}

pub struct Ended {
    pub status: i32,
    pub output: Vec<u8>,
    pub errors: String,
}

pub fn run_program(program: &str, arguments: &[&str], input: &[u8]) -> Ended {
    let mut command = Command::new(program);
    command.args(arguments).stdin(Stdio::piped()).stdout(Stdio::piped()).stderr(Stdio::piped());
    let mut child = command.spawn().expect("the program starts");
    // A program that needs no input may have ended before it is written.
    let _ = child.stdin.take().expect("its input").write_all(input);
    let output = child.wait_with_output().expect("the program ends");
    let errors = String::from_utf8(output.stderr).expect("messages are text");
    Ended { status: output.status.code().expect("an exit status"), output: output.stdout, errors }
}
