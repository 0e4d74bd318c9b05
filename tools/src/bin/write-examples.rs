//! Writes the example runs and their listings.

use std::path::Path;
use std::process::ExitCode;

use model::examples::all;
use tools::arguments::Arguments;
use tools::command::{self, Failure};
use tools::output::to_file;
use tools::{proved, text};

const HELP: &str = r#"write-examples: the runs of examples/ and their listings

  write-examples [FOLDER]

Writes the run file of each example and its listing into FOLDER (examples), both
by the proved library, and prints their names. Tests hold them to the model.
"#;

fn main() -> ExitCode {
    command::main(HELP, |arguments| {
        let folder = match &Arguments::new(arguments).files()?[..] {
            [] => "examples".to_string(),
            [folder] => folder.clone(),
            _ => return Err(Failure::Usage("expected one folder".into())),
        };
        let mut names = String::new();
        for example in all() {
            for (ending, bytes) in
                [("run", text::to_file(&example.run)), ("listing", proved::listing(&example.run))]
            {
                let name = Path::new(&folder).join(format!("{}.{ending}", example.name));
                let name = name.display().to_string();
                to_file(&name, &bytes)
                    .map_err(|error| Failure::Input(format!("cannot write {name}: {error}")))?;
                names += &(name + "\n");
            }
        }
        Ok(names)
    })
}
