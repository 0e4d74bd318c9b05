//! Turns the text form of a run into a run file and back, checks what a text
//! expects, and makes run files of workloads.

use std::iter;
use std::process::ExitCode;

use tools::arguments::Arguments;
use tools::check::verdict;
use tools::command::{self, Failure};
use tools::input::Input;
use tools::output::Output;
use tools::proved;
use tools::refusals::counted;
use tools::refused_file::no_workload;
use tools::scenario::Scenario;
use tools::text::script::Script;
use tools::text::{print, to_file, workload_file};
use tools::upgrade;

const HELP: &str = r#"runtext: the text form of runs

  runtext encode [FILE]              text to run file
  runtext check [FILE..]             are the text's expectations met? asks the
                                     proved library
  runtext format [--expand] [FILE]   text to canonical form, without comments
  runtext decode [FILE]              run file to text, in canonical form
  runtext load --seed S --steps N [FILE]
                                     text without steps to run file, with those
                                     of a workload
  runtext upgrade --delay D [OLD] -o NEW
                                     run file from before delayed invalidations
                                     to one with a delay

Without a FILE, standard input is read. -o OUT writes a file instead of standard
output, whole or not at all. A text has lines as these, in this order:

  note "two clients, one object"         # or: note hex 00 ff ..; any number
  clients 2 volumes 1 objects 1
  volume lease 10 object lease 100 timeout 3
  delay 1                                # ticks, see below
  volume 0 objects 0                     # each volume that has objects

  read client 0 object 0 => ask first    # what you expect, wherever you like
  join client 0 object 0                 # asks and deliveries until it holds it
  read client 0 object 0 => shown 0
  ask client 1 object 0
  double RENEW from client 1             # the first such message under way
  deliver 0                              # the one at place 0 of those under way
  deliver OFFER to client 1
  lose 0
  write object 0 value 7 => done
  deliver INVALIDATE to client 0
  deliver last ACK from client 0 object 0 => completed 1
  clock 10
  restart server
  restart client 1
  save 0                                 # all tables, messages and the clock
  return 0                               # they are again as they were then

`#` begins a comment; numbers are decimal. Expectations are done, shown V, ask
first, completed N and refused N. A step of an unknown kind has all its fields:
kind 12 client 0 object 0 place 0 clock 0 value 0. The messages are RENEW, ACK,
DROPPED, CLEARED from a client and GRANT, INVALIDATE, OFFER, BATCH to one;
deliver, lose and double take them by name: the first under way, or with a word
before it the second, third, .. or last. `object 0` behind it takes one about
that object, as `volume 0` does of an OFFER, DROPPED, BATCH or CLEARED. --expand
writes names and joins out as exact steps. A line `one tick is 250 ms` (or s,
min, h) before the first step is for explain and picture, which then tell the
time beside the ticks; no byte of the run file changes. The paper's dash, region
and notice are understood as client, volume and object, and a text whose setup
begins with them is answered in them; format and decode write client, volume and
object.

The delay, 1 to 65535 ticks, says how long after its volume lease has ended a
client with notes stays reachable. A write does not wait for a client whose
volume lease has ended while its object lease lives: it notes the object, unless
the client is marked unreachable. The client's next RENEW in the volume is
answered by a BATCH, which erases its copies of all that is noted; it answers
with CLEARED and has to ask again, as `join` does. A text without a delay is
told the line to add.

A save keeps the state under a name, 0 to 3, and replaces what had the name; a
return restores it as often as you like, and leaves all saved states as they
are. Places, names of messages and joins after a return go by what it restored.
A name above 3, or one to return to that was never saved, is refused with 11.

load reads note and setup alone. A seed, 0 to 4294967295, gives the same steps
every time, at most 4000: load for the list of messages, restarts, offers and
refusals, but hardly ever a lease, since the server restarts every 9 steps on
the average and a delivery meets a given message once in 64. Take an odd number
of clients or of objects, as 3 and 4: where 2^e is the greatest power of two
that divides both, object and 13 * client + 15 of each read and ask leave the
same remainder by 2^e, so that with 4 and 4 no object is asked by two clients. A
count that is a power of two is gone through in a fixed order: each of 4 objects
is drawn every 4th step.

upgrade rewrites a run file from before delayed invalidations, which has no
delay and is refused today. Note, setup and steps stay as they are, and D, 1 to
65535 ticks, is added. Its listing is the same as before unless a write meets a
client whose volume lease has ended while its object lease lives. A file with 29
to 32 objects cannot be rewritten: objects end at 28 today. To an old text add
the line `delay D` after the line with `timeout`.

check tells how many expectations hold and every one that fails, with why the
answer was another: for a read answered "ask first" the reason that explain
gives. encode, check and load end with a line on standard error that counts
refused steps. A bad line is told with its number, what was found and what was
expected; then nothing is written and the exit status is 1, as it is where an
expectation fails (2 is a wrong call).
"#;

const FORMS: &str = "encode, check, format, decode, load or upgrade";

fn main() -> ExitCode {
    command::main(HELP, |arguments| {
        let Some((form, rest)) = arguments.split_first() else {
            return Err(Failure::Usage(format!("found no argument, expected {FORMS}")));
        };
        let arguments = Arguments::new(rest);
        match form.as_str() {
            "encode" => encode(arguments),
            "check" => check(arguments),
            "format" => format(arguments),
            "decode" => {
                let run = Input::read(arguments.file()?.as_deref())?.run_of_file()?;
                Ok(print(&run).into())
            }
            "load" => load(arguments),
            "upgrade" => upgrade(arguments),
            other => Err(Failure::Usage(format!("found {other:?}, expected {FORMS}"))),
        }
    })
}

fn encode(arguments: Arguments) -> Result<Output, Failure> {
    let input = Input::read(arguments.file()?.as_deref())?;
    let script = input.script()?;
    let written = input.written_out(&script)?;
    let told = counted(written.steps.iter().map(|step| step.answer));
    let told = told.map(|line| script.voice.said(&line)).into_iter().collect();
    Ok(Output { told, ..Output::from(to_file(&written.run)) })
}

fn format(mut arguments: Arguments) -> Result<Output, Failure> {
    let expand = arguments.flag("--expand");
    let input = Input::read(arguments.file()?.as_deref())?;
    let script = input.script()?;
    let text = if expand { script.expanded(&input.written_out(&script)?) } else { script.print() };
    Ok(text.into())
}

fn load(mut arguments: Arguments) -> Result<Output, Failure> {
    let any = 0..=u32::MAX;
    let (seed, steps) = (arguments.needed("--seed", any.clone())?, arguments.needed("--steps", any)?);
    let input = Input::read(arguments.file()?.as_deref())?;
    let Script { note, setup, voice, .. } = input.without_steps()?;
    let file = workload_file(seed, &note, &setup, steps)
        .map_err(|refused| input.failure(&[no_workload(refused, note.len(), steps)]))?;
    let told = counted(proved::answers_of(&file)).map(|line| voice.said(&line));
    Ok(Output { told: told.into_iter().collect(), ..file.into() })
}

fn upgrade(mut arguments: Arguments) -> Result<Output, Failure> {
    let delay = arguments.needed("--delay", upgrade::DELAYS)?;
    let input = Input::read(arguments.file()?.as_deref())?;
    let file = upgrade::upgraded(&input.bytes, delay).map_err(|reason| input.failure(&[reason]))?;
    Ok(file.into())
}

/// Returns a verdict for each text, even if one before it could not be read.
fn check(arguments: Arguments) -> Result<Output, Failure> {
    let mut files: Vec<Option<String>> = arguments.files()?.into_iter().map(Some).collect();
    if files.is_empty() {
        files.push(None);
    }
    let mut output = Output::from(String::new());
    let (mut answers, mut voice) = (Vec::new(), None);
    for file in files {
        let read =
            Input::read(file.as_deref()).and_then(|input| Ok((Scenario::from(input.script()?), input)));
        match read {
            Ok((scenario, input)) => {
                checked(&input, &scenario, &mut output);
                answers.extend(proved::answers(&scenario.run));
                voice.get_or_insert(scenario.voice);
            }
            Err(Failure::Input(message) | Failure::Usage(message)) => {
                output.told.push(message);
                output.holds = false;
            }
        }
    }
    output.told.extend(counted(answers).map(|line| voice.unwrap_or_default().said(&line)));
    Ok(output)
}

/// Adds how many of a text's expectations hold, and each one that fails.
fn checked(input: &Input, scenario: &Scenario, output: &mut Output) {
    let verdict = verdict(scenario);
    for line in iter::once(&verdict.words).chain(&verdict.failures) {
        output.bytes.extend(format!("{}: {line}\n", input.name()).bytes());
    }
    output.holds &= verdict.holds();
    if let Some(trouble) = scenario.stopped() {
        output.told.push(input.named(trouble));
        output.holds = false;
    }
}
