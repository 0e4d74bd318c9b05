//! Reads a whole text. Every bad line is reported, and then there is no script.

use model::limits::FILE_BYTES;
use model::runfile::distance;

use super::actions::{self, Action};
use super::script::{Line, Script};
use super::setup::Partial;
use super::words::{quoted, Trouble, Words, Wrong, ARROW};
use super::{expected, note, setup, steps};
use crate::tick::{Tick, TICK};
use crate::vocabulary::{plain, Vocabulary};
use crate::voice::Voice;

const NO_STEP: &str = "no step: the seed gives the steps";

/// Some editors put this before a text.
const BYTE_ORDER_MARK: &[u8] = b"\xef\xbb\xbf";

/// The parts of a text, in order.
#[derive(Clone, Copy, Default, PartialEq, PartialOrd)]
enum Part {
    #[default]
    Note,
    Counts,
    Ticks,
    Delay,
    Volumes,
    Steps,
}

#[derive(Default)]
struct Reader {
    part: Part,
    /// The last part that the text may have.
    last: Part,
    note: Vec<u8>,
    setup: Partial,
    /// The numbers of the lines with `timeout` and with the delay.
    ticks_line: Option<usize>,
    delay_line: Option<usize>,
    /// The vocabulary of the first such word outside the note.
    words: Option<Vocabulary>,
    tick: Option<Tick>,
    lines: Vec<Line>,
    /// Comments that belong to the line that follows them.
    comments: Vec<String>,
    opening: Vec<String>,
    /// Where a missing setup line is reported: the first step's line.
    first_step: Option<usize>,
    troubles: Vec<Trouble>,
}

/// Returns what a text says, or what is wrong with its lines.
pub fn script(text: &[u8]) -> Result<Script, Vec<Trouble>> {
    read(text, Part::Steps)
}

/// Does the same, but treats a step as a bad line.
pub fn without_steps(text: &[u8]) -> Result<Script, Vec<Trouble>> {
    read(text, Part::Volumes)
}

fn read(text: &[u8], last: Part) -> Result<Script, Vec<Trouble>> {
    let mut reader = Reader { last, ..Reader::default() };
    let text = text.strip_prefix(BYTE_ORDER_MARK).unwrap_or(text);
    let text = text.strip_suffix(b"\n").unwrap_or(text);
    let mut number = 0;
    for line in text.split(|&byte| byte == b'\n') {
        number += 1;
        if let Err(wrong) = reader.read_bytes(line, number) {
            reader.troubles.push(Trouble { line: number, wrong });
        }
        if reader.first_step.is_none() && reader.part == Part::Steps {
            reader.first_step = Some(number);
        }
    }
    let words = reader.words.unwrap_or_default();
    let told = |troubles: Vec<Trouble>| troubles.iter().map(|trouble| trouble.said(words)).collect();
    reader.whole(number).map_err(told)
}

impl Reader {
    fn read_bytes(&mut self, line: &[u8], number: usize) -> Result<(), Wrong> {
        let line = line.strip_suffix(b"\r").unwrap_or(line);
        let text = std::str::from_utf8(line);
        let text = text.map_err(|_| Wrong::new("bytes that are no text", "UTF-8"))?;
        if text.contains('\0') {
            return Err(Wrong::new("a zero byte", "text"));
        }
        self.read_line(text, number)
    }

    fn read_line(&mut self, line: &str, number: usize) -> Result<(), Wrong> {
        let mut words = Words::new(line);
        let Some(first) = words.peek() else {
            self.comments.extend(comment(line));
            return Ok(());
        };
        if first == "one" && self.part < Part::Steps {
            return self.read_tick(&mut words);
        }
        if part_of(first, line) != Some(Part::Note) {
            self.words = self.words.or_else(|| words.find(Vocabulary::of));
        }
        self.report_early_delay(part_of(first, line));
        self.part = self.next_part(first, line)?;
        if self.part == Part::Steps {
            return self.read_step(&mut words, line, number);
        }
        self.opening.append(&mut self.comments);
        match self.part {
            Part::Counts => self.setup.read_counts(&mut words),
            Part::Ticks => {
                self.ticks_line = Some(number);
                self.setup.read_ticks(&mut words)
            }
            Part::Delay => {
                self.delay_line = Some(number);
                self.setup.read_delay(&mut words)
            }
            Part::Volumes => self.setup.read_volume(&mut words),
            _ => note::parse(&line.trim_start()["note".len()..], &mut self.note),
        }
    }

    /// Reports a delay before the counts or the ticks when these come after it,
    /// and goes back, so that they may.
    fn report_early_delay(&mut self, part: Option<Part>) {
        let late = match part {
            Some(Part::Counts) => self.setup.counts.is_none(),
            Some(Part::Ticks) => self.ticks_line.is_none(),
            _ => false,
        };
        if let (Part::Delay, true, Some(line)) = (self.part, late, self.delay_line) {
            self.part = Part::Note;
            self.troubles.push(Trouble { line, wrong: Wrong::new("`delay`", setup::DELAY_PLACE) });
        }
    }

    /// Returns the line's part, if it may come now: parts come in order, and
    /// counts, ticks and delay have one line each. Whether one is missing is checked
    /// at the end, so that a misspelt line is reported once.
    fn next_part(&self, first: &str, line: &str) -> Result<Part, Wrong> {
        let expected = match self.part {
            Part::Note => format!("a note or {}", setup::COUNTS),
            Part::Counts => setup::TICKS.into(),
            Part::Ticks => setup::DELAY.into(),
            Part::Delay => setup::VOLUME.into(),
            Part::Volumes if self.last == Part::Volumes => setup::VOLUME.into(),
            Part::Volumes => format!("{} or {}", setup::VOLUME, steps::A_STEP),
            Part::Steps => steps::A_STEP.into(),
        };
        let once = [Part::Counts, Part::Ticks, Part::Delay].contains(&self.part);
        match part_of(first, line) {
            Some(part) if part > self.last => Err(Wrong::new(quoted(first), NO_STEP)),
            Some(part) if part > self.part || part == self.part && !once => Ok(part),
            Some(Part::Delay) if self.delay_line.is_some() => {
                Err(Wrong::new(quoted(first), setup::DELAY_ONCE))
            }
            Some(Part::Delay) => Err(Wrong::new(quoted(first), setup::DELAY_PLACE)),
            _ => Err(Wrong::new(quoted(first), expected)),
        }
    }

    /// Reads the length of a tick, which may come anywhere before the first
    /// step.
    fn read_tick(&mut self, words: &mut Words) -> Result<(), Wrong> {
        self.opening.append(&mut self.comments);
        let tick = Tick::parse(words)?;
        match self.tick.replace(tick) {
            None => Ok(()),
            Some(_) => Err(Wrong::new("a second length of a tick", format!("{TICK} once"))),
        }
    }

    fn read_step(&mut self, words: &mut Words, line: &str, number: usize) -> Result<(), Wrong> {
        let before = std::mem::take(&mut self.comments);
        let action = actions::parse(words)?;
        if let Action::Join { .. } = action {
            words.end()?;
        }
        let expected = expected::parse(words)?;
        let (written, behind) = (written(line), comment(line));
        self.lines.push(Line { number, action, expected, written, before, behind });
        Ok(())
    }

    fn whole(mut self, last: usize) -> Result<Script, Vec<Trouble>> {
        if !self.troubles.is_empty() {
            self.troubles.sort_by_key(|trouble| trouble.line);
            return Err(self.troubles);
        }
        let room = FILE_BYTES - distance(0);
        let wrong = match self.setup.whole() {
            Err(wrong) => wrong,
            Ok(setup) if self.note.len() <= room => {
                let voice = Voice { words: self.words.unwrap_or_default(), tick: self.tick };
                let (lines, opening, ending) = (self.lines, self.opening, self.comments);
                return Ok(Script { note: self.note, setup, voice, lines, opening, ending });
            }
            Ok(_) => Wrong::new(format!("a note of {} bytes", self.note.len()), format!("at most {room}")),
        };
        // A missing delay is reported on the line that it should follow.
        let place = match (self.setup.counts, self.setup.delay) {
            (Some(_), None) => self.ticks_line.or(self.first_step),
            _ => self.first_step,
        };
        Err(vec![Trouble { line: place.unwrap_or(last), wrong }])
    }
}

/// Returns what is written before the expectation and the comment, with single
/// spaces.
fn written(line: &str) -> String {
    let step = line.split('#').next().and_then(|words| words.split(ARROW).next());
    step.into_iter().flat_map(str::split_whitespace).collect::<Vec<_>>().join(" ")
}

/// Returns the comment of a line, without its `#`.
fn comment(line: &str) -> Option<String> {
    line.split_once('#').map(|(_, comment)| comment.trim().into())
}

/// Returns the part that a line with this first word belongs to. `volume lease`
/// and `volume 0` begin alike.
fn part_of(first: &str, line: &str) -> Option<Part> {
    match plain(first) {
        "clients" => Some(Part::Counts),
        "volume" if line.split_whitespace().nth(1) == Some("lease") => Some(Part::Ticks),
        "volume" => Some(Part::Volumes),
        "delay" => Some(Part::Delay),
        _ if first.split('"').next() == Some("note") => Some(Part::Note),
        _ if actions::FIRST_WORDS.contains(&first) => Some(Part::Steps),
        _ => None,
    }
}
