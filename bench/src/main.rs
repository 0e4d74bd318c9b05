//! Compares the proved library with the model, on the same files in one
//! process: time per step, how it grows, time to read and to write a file and to
//! tell why a read was answered "ask first", peak memory and stack. `--brief` prints the same tables from a few repetitions,
//! `--instructions` prints instructions per step, which are the same every
//! time, and `--messages` the messages that parked clients cost.

mod file_times;
mod files;
mod instructions;
mod kinds;
mod memory;
mod messages;
mod subjects;
mod timing;
mod why_times;

use std::process::ExitCode;
use std::{env, io};

use file_times::{reading, stack_of_writing, writing};
use files::{growing, runs};
use gevtsomi::LISTING_BYTES;
use kinds::{kinds, Kind};
use model::limits::STEPS;
use subjects::{asking, proved, same, trusting};
use timing::{medians, Effort, BRIEF, FULL};
use why_times::{reasons, stack_of_a_reason};

const USAGE: &str = "usage: bench [--brief | --instructions | --messages]";

fn main() -> ExitCode {
    let words: Vec<String> = env::args().skip(1).collect();
    let done = match words.iter().map(String::as_str).collect::<Vec<_>>()[..] {
        [] => report(FULL),
        ["--brief"] => report(BRIEF),
        ["--instructions"] => instructions::report(),
        ["--messages"] => {
            messages::report();
            Ok(())
        }
        // The program starts itself with these arguments.
        ["peak", subject] => memory::print_peak(subject),
        ["repeat", subject, times] => instructions::repeat(subject, times),
        _ => {
            eprintln!("{USAGE}");
            return ExitCode::from(2);
        }
    };
    match done {
        Ok(()) => ExitCode::SUCCESS,
        Err(error) => {
            eprintln!("bench: {error}");
            ExitCode::FAILURE
        }
    }
}

fn report(effort: Effort) -> io::Result<()> {
    for run in runs() {
        same(&run.file);
        println!("{STEPS} steps of {run}");
        let times = medians(effort, &run.file, &[&proved, &asking, &trusting]);
        let [proved, asking, trusting] = times[..] else { unreachable!() };
        let per_step = |time: f64| time / STEPS as f64;
        println!("  proved library                 {:6.0} ns a step", per_step(proved));
        println!(
            "  model, question 1 each step    {:6.0} ns a step, ratio {:.2}",
            per_step(asking),
            proved / asking
        );
        println!(
            "  model, question 1 not asked    {:6.0} ns a step, ratio {:.2}",
            per_step(trusting),
            proved / trusting
        );
    }
    by_kind(effort);
    growth(effort);
    reading(effort);
    writing(effort);
    reasons(effort);
    println!("peak memory of a process that lists the first file once");
    for subject in ["nothing", "proved", "asking"] {
        println!("  {subject:10} {:6} KiB", memory::of(subject)?);
    }
    println!("stack that a listing of the first file takes: {} KiB", stack_of_a_listing()?);
    println!("stack that telling why a read was answered \"ask first\" takes: {} KiB", stack_of_a_reason()?);
    let [seed, steps] = stack_of_writing()?;
    println!(
        "stack that writing the workload's file takes: from its seed {seed} KiB, from its steps {steps} KiB"
    );
    Ok(())
}

fn stack_of_a_listing() -> io::Result<u64> {
    let file = &runs()[0].file;
    let mut output = vec![0; LISTING_BYTES];
    memory::stack(|| {
        gevtsomi::list(file, &mut output).expect("room for any listing");
    })
}

fn by_kind(effort: Effort) {
    println!("by kind, 16 clients, 8 volumes, 28 objects: ns a step of library, asking model, other model");
    for Kind { name, file, .. } in kinds() {
        same(&file);
        let times = medians(effort, &file, &[&proved, &asking, &trusting]);
        let [proved, asking, trusting] = times[..] else { unreachable!() };
        let per_step = |time: f64| time / STEPS as f64;
        println!("  {name:18} {:6.0} {:6.0} {:6.0}", per_step(proved), per_step(asking), per_step(trusting));
    }
}

fn growth(effort: Effort) {
    println!("growing: ns a step of library and other model");
    for (name, sizes) in growing() {
        for (size, file) in sizes {
            same(&file);
            let times = medians(effort, &file, &[&proved, &trusting]);
            let per_step = |time: f64| time / STEPS as f64;
            println!("  {name:18} {size:3} {:6.0} {:6.0}", per_step(times[0]), per_step(times[1]));
        }
    }
}
