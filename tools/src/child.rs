//! Feeds a file to a program and reads what it prints.

use std::io::{self, Read, Write};
use std::process::{Child, Command, Stdio};
use std::sync::mpsc;
use std::thread;
use std::time::Duration;

/// Runs are short, so a program that takes this long hangs.
const PATIENCE: Duration = Duration::from_secs(20);

/// Returns what the program prints on standard output for this file. If it
/// hangs, is killed by a signal or exits with a status other than 0, a last
/// line is added that no listing has.
pub fn listing_by(program: &str, file: &[u8]) -> io::Result<Vec<u8>> {
    let mut command = Command::new(program);
    let mut child = command.stdin(Stdio::piped()).stdout(Stdio::piped()).stderr(Stdio::null()).spawn()?;
    feed(&mut child, file.to_vec());
    let printed = collect(&mut child);
    let in_time = printed.recv_timeout(PATIENCE);
    if in_time.is_err() {
        child.kill()?;
    }
    let status = child.wait()?;
    let mut lines = in_time.unwrap_or_else(|_| b"(hangs)\n".to_vec());
    if !status.success() {
        lines.extend_from_slice(format!("({status})\n").as_bytes());
    }
    Ok(lines)
}

/// Writes the file on a separate thread, since the program may print before it
/// has read everything. It may also stop reading a file that is too long.
fn feed(child: &mut Child, file: Vec<u8>) {
    let input = child.stdin.take();
    thread::spawn(move || input.map(|mut input| input.write_all(&file)));
}

fn collect(child: &mut Child) -> mpsc::Receiver<Vec<u8>> {
    let output = child.stdout.take();
    let (sender, receiver) = mpsc::channel();
    thread::spawn(move || {
        let mut lines = Vec::new();
        if let Some(mut output) = output {
            // A failed read shows up as a difference from the model's listing.
            let _ = output.read_to_end(&mut lines);
        }
        sender.send(lines)
    });
    receiver
}
