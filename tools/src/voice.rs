//! How a run is told: in whose words, and with the time beside the ticks if the
//! text says how long a tick is.

use crate::tick::Tick;
use crate::vocabulary::Vocabulary;

/// The default is for run files: the field's words, and ticks only.
#[derive(Clone, Copy, Debug, Default, PartialEq, Eq)]
pub struct Voice {
    pub words: Vocabulary,
    pub tick: Option<Tick>,
}

impl Voice {
    /// Returns our text in the user's words. Never pass what the user wrote.
    pub fn said(&self, ours: &str) -> String {
        self.words.said(ours)
    }

    /// Returns a number of ticks, with the time if it is known: "10 = 2.5 s".
    pub fn ticks(&self, ticks: u32) -> String {
        match self.tick {
            None => ticks.to_string(),
            Some(tick) => format!("{ticks} = {}", tick.time(ticks)),
        }
    }
}
