//! Draws a run over time.

use std::process::ExitCode;

use tools::arguments::Arguments;
use tools::command::{self, Failure};
use tools::input::Input;
use tools::output::Output;
use tools::picture::layout::Window;
use tools::picture::{page, svg};

const HELP: &str = r#"picture: a run over time

  picture svg [--from N] [--to N] [FILE]      a picture alone
  picture html [--from N] [--to N] [FILE]     a page that holds it

FILE is a run file or its text; without one, standard input is read. -o OUT
writes a file instead of standard output. Each step is a column; the clock moves
in the columns of clock steps alone. The server has a lane and each client one:
leases are bars, messages arrows from sending to delivery, writes bars from
acceptance to completion with their latest end and what fixes it, reads circles.
What is pointed at tells all about itself, a read answered "ask first" also why.
A bar in the volume's row shows what the server has noted for a client. A return
to a saved state breaks all lanes: bars and messages end there, and those that
it restores begin anew. The steps that it leaves behind are shaded.

Standard error tells how many expectations of a text failed. Where a join or a
name in it cannot be met, the run is shown up to there and the reason is told;
the exit status is then 1.

--from and --to show the steps from N to N of the listing; what began before or
ends after them is cut at the edge. A picture alone has at most 300 steps, since
no wider one is drawn everywhere; standard error says where it was cut. For a
long run take the page: it scrolls with the names in sight, zooms out to all of
the run, shows one client or object alone, and finds a step by its number (also
as run.html#120) or the next one that was refused, shown, told to ask first,
completed a write or was expected to do something else. It works offline, on a
phone and on paper.
"#;

fn main() -> ExitCode {
    command::main(HELP, |arguments| {
        let Some((form, rest)) = arguments.split_first() else {
            return Err(Failure::Usage("found no argument, expected svg or html".into()));
        };
        if form != "svg" && form != "html" {
            return Err(Failure::Usage(format!("found {form:?}, expected svg or html")));
        }
        let mut arguments = Arguments::new(rest);
        let from = step(&mut arguments, "--from")?;
        let to = step(&mut arguments, "--to")?;
        let input = Input::read(arguments.file()?.as_deref())?;
        let scenario = input.scenario()?;
        let wanted = window(from, to, scenario.run.steps.len());
        let wanted = wanted.map_err(|wrong| input.too_short(&scenario, wrong))?;
        if form == "html" {
            return Ok(input.told_of(&scenario, page(&scenario, wanted).into()));
        }
        let shown = wanted.narrowed();
        let told = narrowing(shown, wanted).into_iter().collect();
        Ok(input.told_of(&scenario, Output { told, ..svg(&scenario, shown).into() }))
    })
}

/// Returns what to print on standard error if the whole picture would be too
/// wide.
fn narrowing(shown: Window, wanted: Window) -> Option<String> {
    let Window { from, to } = shown;
    let last = wanted.to;
    (to < last).then(|| {
        format!("picture: steps {from} to {to} alone, up to {last} it is too wide for a picture: take --from and --to, or html")
    })
}

fn step(arguments: &mut Arguments, name: &str) -> Result<Option<usize>, Failure> {
    arguments.number(name, "the number of a step")
}

/// Returns the steps to show. A run without steps has an empty window.
fn window(from: Option<usize>, to: Option<usize>, count: usize) -> Result<Window, String> {
    let window = Window { from: from.unwrap_or(1), to: to.unwrap_or(count).min(count) };
    let empty = count == 0 && from.is_none();
    if empty || (1..=window.to).contains(&window.from) {
        return Ok(window);
    }
    Err(format!("no steps from {} to {}: the run has {count}", window.from, to.unwrap_or(count)))
}
