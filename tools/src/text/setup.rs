//! Setup lines, read and written: the counts, the ticks, the delay, then each
//! volume's objects.

use model::limits::{CLIENTS, DELAY as DELAY_TICKS, OBJECTS, OBJECT_LEASE, TIMEOUT, VOLUMES, VOLUME_LEASE};
use model::setup::Setup;

use super::words::{Words, Wrong};

pub const COUNTS: &str = "`clients C volumes V objects O`";
pub const TICKS: &str = "`volume lease TV object lease T timeout M`";
pub const DELAY: &str = "`delay D`";
pub const DELAY_PLACE: &str = "it after the line with `timeout`";
pub const DELAY_ONCE: &str = "it once, after the line with `timeout`";
pub const VOLUME: &str = "`volume V objects O ...`";

pub fn lines(setup: &Setup) -> Vec<String> {
    let Setup { clients, volumes, objects, volume_lease, object_lease, timeout, delay, .. } = setup;
    let mut lines = vec![
        format!("clients {clients} volumes {volumes} objects {objects}"),
        format!("volume lease {volume_lease} object lease {object_lease} timeout {timeout}"),
        format!("delay {delay}"),
    ];
    for volume in 0..usize::from(*volumes) {
        let inside = (0..usize::from(*objects)).filter(|&object| setup.volume(object) == volume);
        let inside: Vec<String> = inside.map(|object| object.to_string()).collect();
        if !inside.is_empty() {
            lines.push(format!("volume {volume} objects {}", inside.join(" ")));
        }
    }
    lines
}

/// The setup, as far as its lines have been read.
#[derive(Default)]
pub struct Partial {
    pub counts: Option<(u8, u8, u8)>,
    pub ticks: Option<(u32, u32, u32)>,
    pub delay: Option<u32>,
    volume_of: [Option<u8>; OBJECTS],
}

impl Partial {
    pub fn read_counts(&mut self, words: &mut Words) -> Result<(), Wrong> {
        let mut count = |name: &str, most: usize| {
            words.word(name)?;
            words.number(&format!("a number of {name}"), 1, most as u64).map(|count| count as u8)
        };
        let counts = (count("clients", CLIENTS)?, count("volumes", VOLUMES)?, count("objects", OBJECTS)?);
        words.end()?;
        self.counts = Some(counts);
        Ok(())
    }

    pub fn read_ticks(&mut self, words: &mut Words) -> Result<(), Wrong> {
        let mut ticks = |names: &[&str], most: u32| {
            names.iter().try_for_each(|name| words.word(name))?;
            words.number("ticks", 1, most.into()).map(|ticks| ticks as u32)
        };
        let volume_lease = ticks(&["volume", "lease"], VOLUME_LEASE)?;
        let object_lease = ticks(&["object", "lease"], OBJECT_LEASE)?;
        let timeout = ticks(&["timeout"], TIMEOUT)?;
        words.end()?;
        self.ticks = Some((volume_lease, object_lease, timeout));
        Ok(())
    }

    pub fn read_delay(&mut self, words: &mut Words) -> Result<(), Wrong> {
        words.word("delay")?;
        let delay = words.number("ticks", 1, DELAY_TICKS.into())? as u32;
        words.end()?;
        self.delay = Some(delay);
        Ok(())
    }

    /// Reads a volume's objects. After a bad line of counts the largest counts
    /// are assumed, so that one mistake is reported once.
    pub fn read_volume(&mut self, words: &mut Words) -> Result<(), Wrong> {
        let (_, volumes, objects) = self.counts.unwrap_or((CLIENTS as u8, VOLUMES as u8, OBJECTS as u8));
        words.word("volume")?;
        let volume = words.number("a volume", 0, u64::from(volumes) - 1)? as u8;
        words.word("objects")?;
        let one = format!("an object from 0 to {}", objects - 1);
        let mut first = true;
        while first || words.peek().is_some() {
            first = false;
            let object = words.number("an object", 0, u64::from(objects) - 1)? as usize;
            if let Some(other) = self.volume_of[object].replace(volume) {
                let again = format!("object {object} again, after volume {other}");
                return Err(Wrong::new(again, format!("{one}, each in one volume")));
            }
        }
        Ok(())
    }

    /// Returns the whole setup, or the line that is missing.
    pub fn whole(&self) -> Result<Setup, Wrong> {
        let missing = |line: &str| Wrong::new("no such line before", line);
        let (clients, volumes, objects) = self.counts.ok_or_else(|| missing(COUNTS))?;
        let (volume_lease, object_lease, timeout) = self.ticks.ok_or_else(|| missing(TICKS))?;
        let delay = self.delay.ok_or_else(without_delay)?;
        let mut volume_of = [0; OBJECTS];
        for (object, volume) in volume_of.iter_mut().enumerate().take(objects.into()) {
            let without = || Wrong::new(format!("no volume of object {object} before"), VOLUME);
            *volume = self.volume_of[object].ok_or_else(without)?;
        }
        Ok(Setup { clients, volumes, objects, volume_lease, object_lease, timeout, delay, volume_of })
    }
}

/// Returns what a text from before delayed invalidations is told about its line
/// with `timeout`: the line to add.
fn without_delay() -> Wrong {
    let add = format!("one: add `delay 1` (1 to {DELAY_TICKS} ticks)");
    Wrong::new(format!("no line {DELAY} after it"), add)
}
