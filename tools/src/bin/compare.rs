//! Compares a program's listings with the model's.

use std::process::ExitCode;

use tools::arguments::Arguments;
use tools::child::listing_by;
use tools::command::{self, Failure};
use tools::compare::{compare, Ended};
use tools::output::Output;

const HELP: &str = r#"compare: a program's listings beside the model's

  compare PROGRAM [--seed N] [--runs N]

Feeds generated runs (1000, or as many as --runs says) and some hundred damaged
files to a program on standard input, and compares what it prints with the
model's listing, byte for byte. Checks as well that each of the model's mistakes
that a run can show would have been found by the same runs. The seed (1, or
--seed) chooses the runs.

At a difference it prints the smallest failing run that it can reach, as text,
and the first line that differs, in words; the exit status is then 1.
"#;

fn main() -> ExitCode {
    command::main(HELP, |arguments| {
        let mut arguments = Arguments::new(arguments);
        let seed = arguments.number("--seed", "a number")?.unwrap_or(1);
        let runs = arguments.number("--runs", "a number")?.unwrap_or(1_000);
        let [program] = &arguments.files()?[..] else {
            return Err(Failure::Usage("expected one program".into()));
        };
        let ended = compare(seed, runs as usize, |file| listing_by(program, file));
        match ended.map_err(|error| Failure::Input(format!("cannot run {program}: {error}")))? {
            Ended::Same(words) => Ok(Output::from(format!("compare: {words}\n"))),
            Ended::Different(words) => {
                Ok(Output { holds: false, ..Output::from(format!("compare: {words}\n")) })
            }
        }
    })
}
