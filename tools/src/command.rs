//! What the commands share: help, `-o`, exit status.

use std::env;
use std::io::{self, Write};
use std::process::ExitCode;

use crate::arguments::Arguments;
use crate::output::{to_file, to_standard_output, Output};

/// Why a command ends without output.
pub enum Failure {
    /// The input is wrong: exit status 1.
    Input(String),
    /// The command was called wrongly: exit status 2.
    Usage(String),
}

/// Runs a command. Its output goes to the file after `-o` or to standard
/// output, whole or not at all.
pub fn main<O: Into<Output>>(help: &str, command: impl FnOnce(&[String]) -> Result<O, Failure>) -> ExitCode {
    let ended = words().and_then(|mut words| {
        if words.iter().any(|word| word == "--help" || word == "-h") {
            return written(None, &help.to_string().into());
        }
        let file = file_after_o(&mut words)?;
        written(file.as_deref(), &command(&words)?.into())
    });
    match ended {
        Ok(true) => ExitCode::SUCCESS,
        Ok(false) => ExitCode::from(1),
        Err(Failure::Input(message)) => {
            tell(&message);
            ExitCode::from(1)
        }
        Err(Failure::Usage(message)) => {
            tell(&format!("{message}\n\n{}", help.trim_end()));
            ExitCode::from(2)
        }
    }
}

/// Returns the arguments as text. Files whose names are not UTF-8 can be read
/// with `<`.
fn words() -> Result<Vec<String>, Failure> {
    let word = |argument: std::ffi::OsString| {
        let wrong = |other| Failure::Usage(format!("found {other:?}, expected arguments that are UTF-8"));
        argument.into_string().map_err(wrong)
    };
    env::args_os().skip(1).map(word).collect()
}

fn file_after_o(words: &mut Vec<String>) -> Result<Option<String>, Failure> {
    let mut arguments = Arguments::new(words);
    let file = arguments.option("-o", "a file to write")?;
    *words = arguments.rest;
    Ok(file)
}

fn written(file: Option<&str>, output: &Output) -> Result<bool, Failure> {
    let (name, written) = match file {
        None | Some("-") => ("standard output", to_standard_output(&output.bytes)),
        Some(name) => (name, to_file(name, &output.bytes)),
    };
    written.map_err(|error| Failure::Input(format!("cannot write {name}: {error}")))?;
    output.told.iter().for_each(|line| tell(line));
    Ok(output.holds)
}

/// Prints to standard error. If that fails, there is nobody to tell.
fn tell(message: &str) {
    let _ = writeln!(io::stderr(), "{message}");
}
