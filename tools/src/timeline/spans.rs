//! Spans, from the step that began something to the step that ended it.

use std::collections::BTreeMap;

use super::tracks::{Detail, Track};

#[derive(Clone, Copy, Debug, PartialEq, Eq)]
pub struct Span {
    pub track: Track,
    pub detail: Detail,
    pub from: usize,
    /// The step that ended it; none if it lasts to the end.
    pub to: Option<usize>,
}

#[derive(Default)]
pub struct Spans {
    ended: Vec<Span>,
    open: BTreeMap<Track, Span>,
}

impl Spans {
    /// Follows the spans through one step, after which `now` is there. To be
    /// called for each step in turn. At a return all of them begin anew.
    pub fn follow(&mut self, step: usize, returns: bool, now: BTreeMap<Track, Detail>) {
        let ended = &mut self.ended;
        self.open.retain(|track, span| {
            let lasts = !returns && now.get(track) == Some(&span.detail);
            if !lasts {
                ended.push(Span { to: Some(step), ..*span });
            }
            lasts
        });
        for (track, detail) in now {
            self.open.entry(track).or_insert(Span { track, detail, from: step, to: None });
        }
    }

    /// Returns all spans, in the order of their tracks.
    pub fn whole(self) -> Vec<Span> {
        let mut spans = self.ended;
        spans.extend(self.open.into_values());
        spans.sort_by_key(|span| (span.track, span.from));
        spans
    }
}
