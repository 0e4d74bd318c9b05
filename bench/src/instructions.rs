//! Counts instructions per step with callgrind. Times differ from run to run;
//! these counts do not, so two states of the code can be compared.

use std::fs::File;
use std::hint::black_box;
use std::io::{self, ErrorKind, Read};
use std::path::{Path, PathBuf};
use std::process::{self, Command};
use std::{env, fs};

use model::limits::STEPS;

use crate::files::{asked_last, runs};
use crate::kinds::kinds;
use crate::subjects::{named, same, same_why};

const VALGRIND: &str = "valgrind";

/// How often it is done in each of the two processes whose counts are
/// subtracted. Start-up and the extra cost of the first listing are in both
/// counts and cancel out.
const REPEATS: [usize; 2] = [2, 4];

/// On processors that have it, glibc clears and copies large pieces of memory
/// with one instruction with a repeat prefix, which callgrind counts once per
/// byte. These thresholds are never reached, so glibc takes the usual 32 bytes
/// at a time.
const NO_REPEAT_PREFIX: &str =
    "glibc.cpu.x86_rep_stosb_threshold=1000000000:glibc.cpu.x86_rep_movsb_threshold=1000000000";

pub fn report() -> io::Result<()> {
    installed(VALGRIND)?;
    let [fewer, more] = REPEATS;
    println!(
        "Instructions a step, from a file's bytes to its listing's, by the library and by the model that"
    );
    println!("does not ask question 1. Counted by callgrind: those of {more} listings less those of {fewer}. Answers");
    println!(
        "are as in a listing, answer and value. One kind of step is in the setup of the first run. The last"
    );
    println!(
        "row is not a listing: it tells why the last step of the run above was answered \"ask first\".\n"
    );
    println!("| run of {STEPS} steps | library | model | ratio |\n|---|---|---|---|");
    let runs = runs().into_iter().map(|run| (run.to_string(), run.file));
    let kinds = kinds().into_iter().map(|kind| (kind.to_string(), kind.file));
    let asked = asked_last();
    let last = ("the second run with a read at its end".to_string(), asked.clone());
    for (made, file) in runs.chain(kinds).chain([last]) {
        same(&file);
        row(&made, &file, ["proved", "trusting"])?;
    }
    same_why(&asked);
    row("why that read was answered \"ask first\"", &asked, ["proved-why", "model-why"])
}

/// Prints the row of a file, by the library's and the model's subject.
fn row(made: &str, file: &[u8], subjects: [&str; 2]) -> io::Result<()> {
    let stored = Stored::new(file)?;
    let library = per_step(&stored.0, subjects[0])?;
    let model = per_step(&stored.0, subjects[1])?;
    println!("| {made} | {library:.1} | {model:.1} | {:.2} |", library / model);
    Ok(())
}

/// A run file that other processes can read until it is dropped.
struct Stored(PathBuf);

impl Stored {
    fn new(file: &[u8]) -> io::Result<Stored> {
        let stored = Stored(env::temp_dir().join(format!("bench-{}.run", process::id())));
        fs::write(&stored.0, file)?;
        Ok(stored)
    }
}

impl Drop for Stored {
    fn drop(&mut self) {
        // A file that cannot be removed stays in the temporary folder.
        let _ = fs::remove_file(&self.0);
    }
}

fn per_step(file: &Path, subject: &str) -> io::Result<f64> {
    let [fewer, more] = REPEATS;
    let difference = counted(file, subject, more)? - counted(file, subject, fewer)?;
    Ok(difference as f64 / ((more - fewer) * STEPS) as f64)
}

/// Returns the number of instructions of a process that runs `repeat`.
fn counted(file: &Path, subject: &str, times: usize) -> io::Result<u64> {
    let mut command = Command::new(VALGRIND);
    command.args(["--tool=callgrind", "--callgrind-out-file=/dev/null"]).arg(env::current_exe()?);
    command.args(["repeat", subject, &times.to_string()]).stdin(File::open(file)?);
    let output = command.env("GLIBC_TUNABLES", NO_REPEAT_PREFIX).output()?;
    let said = String::from_utf8_lossy(&output.stderr);
    let count = if output.status.success() { collected(&said) } else { None };
    count.ok_or_else(|| io::Error::other(format!("{VALGRIND} counted nothing:\n{said}")))
}

/// Fails with what to install if valgrind is missing.
fn installed(valgrind: &str) -> io::Result<()> {
    let started = Command::new(valgrind).arg("--version").output();
    let missing = "valgrind is not installed; on Debian: apt-get install valgrind";
    started.map(drop).map_err(|error| match error.kind() {
        ErrorKind::NotFound => io::Error::other(missing),
        _ => error,
    })
}

/// Returns the count from callgrind's output.
fn collected(said: &str) -> Option<u64> {
    said.lines().find_map(|line| line.split_once("Collected : ")?.1.trim().parse().ok())
}

/// Does what the subject does with the file on standard input, `times` times.
pub fn repeat(subject: &str, times: &str) -> io::Result<()> {
    let (subject, times) = (named(subject)?, times.parse::<usize>().map_err(io::Error::other)?);
    let mut file = Vec::new();
    io::stdin().read_to_end(&mut file)?;
    let mut page = Page(0);
    for _ in 0..times {
        black_box(&mut page).0 = subject(black_box(&file));
    }
    Ok(())
}

/// Aligns the stack frame that has it. How memory is cleared depends on its
/// offset in a page, and the stack's start depends on the environment. From
/// this frame on, all frames have the same offsets in every run.
#[repr(align(4096))]
struct Page(usize);

#[cfg(test)]
mod tests {
    use super::*;

    #[test]
    fn the_count_is_found_in_what_callgrind_says() {
        let said = "==7== Events    : Ir\n==7== Collected : 122430\n==7== \n==7== I   refs:      122,430\n";
        assert_eq!(collected(said), Some(122_430));
        assert_eq!(collected("==7== Events    : Ir\n"), None);
    }

    #[test]
    fn what_to_install_is_told() {
        let error = installed("no-such-valgrind").unwrap_err();
        assert!(error.to_string().contains("apt-get install valgrind"), "{error}");
    }
}
