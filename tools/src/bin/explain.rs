//! Prints a run's listing in words.

use std::process::ExitCode;

use tools::arguments::Arguments;
use tools::command::{self, Failure};
use tools::explain::{at, line_at, line_of, tables, told};
use tools::input::Input;
use tools::listed::Listed;
use tools::output::Output;
use tools::scenario::Scenario;
use tools::{difference, proved, refusals, refused_file, trace};

const HELP: &str = r#"explain: the listing of a run in words

  explain [FILE]                    a line for each step
  explain --why N [FILE]            why step N, a read, was answered "ask first"
  explain --tables N [FILE]         the tables after step N; 0 is before step 1
  explain --listing THEIRS [FILE]   the first difference from another listing

FILE is a run file or its text; without one, standard input is read. -o OUT
writes a file instead of standard output.

A line has the step's number, the clock after it, the step as in the text form,
roadrun's answer in words, and what in the model's tables shows why:

  12 (clock 10) clock 10: done: write of object 0 stands, latest end 10, waits for client 0
  13 (clock 10) read client 0 object 0: ask first: volume lease ran out at 10; granted in step 8 (clock 0)

A read answered "ask first" tells why, with the step of the event and its clock:
the client was never granted the object; an INVALIDATE erased its copy; it
dropped its leases on an OFFER or a BATCH; it restarted; or the volume lease or
the object lease that it was granted ran out, whichever ended first. The last
such event decides, on the line of steps that led to the read. The proved
library gives the reason. --why prints the line of that read and below it the
line of the event.

A write that is accepted and stands tells what fixes its latest end, as in
"latest end 10 by the volume lease of client 0": the clients whose lease ends
then, with the lesser of the two, else the guard, else the timeout. It also
tells for whom it does not wait although they have an object lease: their volume
lease has ended, and the object is noted for them, unless they are marked
unreachable.

A save tells what it keeps, and which save it replaces. A return tells the step
that saved what it restores, what is otherwise again, the messages that are
under way again, with their places, and the steps that it leaves behind: what
follows goes on from the save. --tables ends with the saved states.

The answers: done (0), shown V (1), ask first (2), completed N writes (3),
refused N (4). Standard error ends with a line that counts the refused steps.

Of a text, each line names the line that it comes from and keeps what is written
there; comments stand beside their steps, and an expectation that fails is
marked FAILED with what was expected. Where a join or a name cannot be met, the
listing goes up to there and ends with the reason; the exit status is then 1.

--listing holds a program of your own to the proof: it compares the listing in
THEIRS with the proved library's. Where they differ, the line is told with both
answers and why ours is so, and the exit status is 1.

A file that the reader refuses, a bad line of a text, or a step after --why that
is no read answered "ask first" is told on standard error, with exit status 1; 2
is a wrong call.
"#;

fn main() -> ExitCode {
    command::main(HELP, |arguments| {
        let mut arguments = Arguments::new(arguments);
        let read = arguments.number("--why", "the number of a step")?;
        let step = arguments.number("--tables", "the number of a step")?;
        let theirs = arguments.option("--listing", "the file of a listing")?;
        let input = Input::read(arguments.file()?.as_deref())?;
        match (read, step, theirs) {
            (None, None, None) => {
                let scenario = input.scenario()?;
                Ok(counted(&input, &scenario, told(&scenario).into()))
            }
            (Some(step), None, None) => why(&input, step),
            (None, Some(step), None) => tables_after(&input, step),
            (None, None, Some(theirs)) => differences(&input, &Input::read(Some(&theirs))?.bytes),
            _ => Err(Failure::Usage("found several of --why, --tables and --listing, expected one".into())),
        }
    })
}

/// Adds what is wrong with the text, and a line that counts the run's refused
/// steps.
fn counted(input: &Input, scenario: &Scenario, output: Output) -> Output {
    let mut answers = Vec::new();
    scenario.walk(|moment| answers.push(Listed::of(&moment.answer)));
    let mut output = input.told_of(scenario, output);
    output.told.extend(refusals::counted(answers).map(|line| scenario.voice.said(&line)));
    output
}

/// Returns the line of a read answered "ask first", and below it the line of the
/// event that the reason comes from, if there is one.
fn why(input: &Input, step: usize) -> Result<Output, Failure> {
    let scenario = input.scenario()?;
    let found = at(&scenario, step, |moment| (line_of(&scenario, moment), moment.why()));
    let steps = scenario.run.steps.len();
    let wrong = || format!("--why: found {step}, expected a step from 1 to {steps}");
    let (line, why) = found.ok_or_else(|| input.too_short(&scenario, wrong()))?;
    let Some(why) = why else {
        let wrong = format!("--why: found step {step}, expected a read answered \"ask first\"");
        return Err(input.failure(&[wrong, line]));
    };
    let event = line_at(&scenario, why.event as usize);
    let text = [Some(line), event].into_iter().flatten().map(|line| line + "\n").collect::<String>();
    Ok(counted(input, &scenario, text.into()))
}

fn tables_after(input: &Input, step: u64) -> Result<Output, Failure> {
    let scenario = input.scenario()?;
    let see = |moment: &trace::Moment| {
        let line = line_of(&scenario, moment);
        format!("after step {line}\n\n{}", tables::after(moment))
    };
    let text = match step {
        0 => Some(tables::fresh(&scenario.run.setup, &scenario.voice)),
        _ => at(&scenario, step as usize, see),
    };
    let steps = scenario.run.steps.len();
    let wrong = || format!("--tables: found {step}, expected a step from 0 to {steps}");
    let text = text.ok_or_else(|| input.too_short(&scenario, wrong()))?;
    Ok(counted(input, &scenario, text.into()))
}

/// Returns the first difference from their listing. For a refused file, ours is
/// what roadrun prints. A text that stops has no run file, so it has no listing
/// to compare.
fn differences(input: &Input, theirs: &[u8]) -> Result<Output, Failure> {
    let run = input.scenario_or_fault()?;
    if let Some(trouble) = run.as_ref().ok().and_then(Scenario::stopped) {
        return Err(input.failure(&[trouble.to_string()]));
    }
    let ours = match &run {
        Ok(scenario) => proved::listing(&scenario.run),
        Err(_) => model::listing::listing(&input.bytes),
    };
    let output = match difference::first(&run, &ours, theirs) {
        None => Output::from("no difference\n".to_string()),
        Some(words) => Output { holds: false, ..Output::from(words + "\n") },
    };
    Ok(match run {
        Ok(scenario) => counted(input, &scenario, output),
        Err(fault) => Output { told: vec![refused_file::told(&fault)], ..output },
    })
}
