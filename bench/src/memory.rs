//! Measures the peak memory of a process that does one thing, and the stack
//! that a call takes.

use std::process::Command;
use std::sync::atomic::{AtomicUsize, Ordering};
use std::{env, fs, io, thread};

use crate::files::runs;
use crate::subjects::named;

/// The stack size of the next measured thread. Each is larger than the last: a
/// thread of the same size may get the stack of one that has ended, with some
/// of it still in memory.
static STACK: AtomicUsize = AtomicUsize::new(4 << 20);

/// Returns the peak memory, in KiB, of a process that lists the first file.
pub fn of(subject: &str) -> io::Result<u64> {
    let output = Command::new(env::current_exe()?).args(["peak", subject]).output()?;
    let text = String::from_utf8_lossy(&output.stdout).trim().to_owned();
    text.parse().map_err(|_| io::Error::other(format!("peak {subject} printed {text:?}")))
}

/// Lists the first file once and prints what `of` reads.
pub fn print_peak(subject: &str) -> io::Result<()> {
    named(subject)?(&runs()[0].file);
    println!("{}", peak()?);
    Ok(())
}

/// Returns VmHWM, the most memory that this process has had, in KiB.
fn peak() -> io::Result<u64> {
    let status = fs::read_to_string("/proc/self/status")?;
    let line = status.lines().find_map(|line| line.strip_prefix("VmHWM:"));
    let number = line.and_then(|rest| rest.split_whitespace().next()).and_then(|number| number.parse().ok());
    number.ok_or_else(|| io::Error::other("no VmHWM in /proc/self/status"))
}

/// Returns the stack that a call takes, in KiB: the whole pages of a new
/// thread's stack that it brings into memory.
pub fn stack(call: impl FnOnce() + Send) -> io::Result<u64> {
    let measured = || {
        let before = resident()?;
        apart(call);
        Ok(resident()? - before)
    };
    thread::scope(|scope| {
        let size = STACK.fetch_add(1 << 16, Ordering::Relaxed);
        let started = thread::Builder::new().stack_size(size).spawn_scoped(scope, measured)?;
        started.join().map_err(|_| io::Error::other("the call panicked"))?
    })
}

/// Makes the call in a frame of its own, which is not there before the call.
#[inline(never)]
fn apart(call: impl FnOnce()) {
    call();
}

/// Returns how many KiB of this thread's stack are in memory.
fn resident() -> io::Result<u64> {
    let local = 0_u8;
    let here = std::ptr::addr_of!(local) as u64;
    let maps = fs::read_to_string("/proc/self/smaps")?;
    let mut lines = maps.lines().skip_while(|line| !holds(line, here));
    let number = lines.find_map(|line| line.strip_prefix("Rss:")?.split_whitespace().next()?.parse().ok());
    number.ok_or_else(|| io::Error::other("no mapping of the stack in /proc/self/smaps"))
}

/// Returns whether the line begins a mapping that contains the address.
fn holds(line: &str, address: u64) -> bool {
    let bound = |text| u64::from_str_radix(text, 16).ok();
    let range = line.split(' ').next().and_then(|range| range.split_once('-'));
    let ends = range.and_then(|(start, end)| Some((bound(start)?, bound(end)?)));
    ends.is_some_and(|(start, end)| (start..end).contains(&address))
}

#[cfg(test)]
mod tests {
    use super::*;
    use std::hint::black_box;

    #[test]
    fn a_buffer_on_the_stack_is_counted() {
        let none = stack(|| ()).unwrap();
        let some = stack(|| {
            black_box(black_box([1_u8; 256 << 10]).as_slice());
        })
        .unwrap();
        assert!(none < 64 && some >= 256, "{none} and {some} KiB");
    }

    #[test]
    fn a_second_time_as_much_is_counted() {
        let call = || {
            black_box([1_u8; 256 << 10]);
        };
        let (first, second) = (stack(call).unwrap(), stack(call).unwrap());
        assert!(first.abs_diff(second) <= 4, "{first} and {second} KiB");
    }
}
