//! Draws a run over time, as SVG or as a page that holds it.

mod about;
mod arrows;
mod bars;
mod header;
mod lanes;
pub mod layout;
mod legend;
mod letters;
mod listing;
mod marks;
mod messages;
mod page;
mod paths;
pub mod svg;
mod tiles;
mod words;
mod writes;

use crate::scenario::Scenario;
use crate::text;
use crate::timeline::Timeline;
use layout::{Layout, Window};
use letters::{cut, width, TITLE, WORDS};
use svg::{at, n, Svg};
use tiles::Taken;

pub use page::page;

const STYLE: &str = include_str!("style.css");
/// Room for the names to the left of the lanes.
const NAMES: f64 = 112.0;

/// The least width of a picture alone, for its title and legend.
const NARROW: f64 = 700.0;
/// The distance between the lines below the title.
const LINE: f64 = 13.0;

/// The parts, each with its own coordinates; all use the layout's width and
/// height.
struct Parts {
    layout: Layout,
    header_height: f64,
    header: String,
    names: String,
    lanes: String,
}

impl Parts {
    fn new(timeline: &Timeline, window: Window) -> Parts {
        let layout = Layout::new(timeline, window);
        let header_height = header::height(timeline, &layout);
        let (mut header, mut names, mut body) = (Svg::default(), Svg::default(), Svg::default());
        header::draw(timeline, &layout, header_height, &mut header);
        lanes::names(&layout, NAMES, &mut names);
        let (mut taken, shown) = (Taken::default(), paths::shown(&layout, &timeline.flights));
        marks::columns(timeline, &layout, &mut body);
        lanes::lines(&layout, &mut taken, &mut body);
        bars::draw(timeline, &layout, &mut taken, &mut body);
        arrows::draw(timeline, &layout, &shown, &mut taken, &mut body);
        marks::draw(timeline, &layout, &mut taken, &mut body);
        // Words come last, on their grounds: first those that have only one
        // place.
        messages::reserve(&layout, &shown, &mut taken);
        bars::words(timeline, &layout, &mut taken, &mut body);
        messages::draw(timeline, &layout, &shown, &mut taken, &mut body);
        lanes::again(&layout, &mut taken, &mut body);
        Parts { layout, header_height, header: header.0, names: names.0, lanes: body.0 }
    }

    /// Returns the width of the lanes, with what is right of the last column.
    fn width(&self) -> f64 {
        self.layout.width + self.layout.margin
    }
}

/// Returns the title, which is the note as far as it can be read, and below it
/// what is shown, the setup and the length of a tick.
fn titles(note: &[u8], timeline: &Timeline, window: Window) -> (String, Vec<String>) {
    let note = text::note::title(note).unwrap_or("a run without a note".into());
    let count = timeline.steps.len();
    let shown = match (window.from, window.to) {
        (1, to) if to == count => format!("{count} steps"),
        (from, to) => format!("steps {from} to {to} of {count}"),
    };
    let setup = text::setup::lines(&timeline.setup).into_iter().map(|line| timeline.voice.said(&line));
    let tick = timeline.voice.tick.map(|tick| tick.line());
    (note, std::iter::once(shown).chain(setup).chain(tick).collect())
}

/// Returns how many of the text's expectations hold, and why it stopped; each
/// with whether it is bad news.
fn verdicts(timeline: &Timeline) -> impl Iterator<Item = (&String, bool)> {
    let failed = timeline.steps.iter().any(|view| view.failed());
    let verdict = timeline.verdict.iter().map(move |words| (words, failed));
    verdict.chain(timeline.stopped.iter().map(|words| (words, true)))
}

/// Returns the pieces in as many lines as they need.
fn wrapped<'a>(pieces: impl Iterator<Item = &'a str>, between: &str, room: f64) -> Vec<String> {
    let mut lines: Vec<String> = Vec::new();
    for piece in pieces {
        match lines.last_mut() {
            Some(line) if width(&format!("{line}{between}{piece}"), WORDS) <= room => {
                *line = format!("{line}{between}{piece}");
            }
            _ => lines.push(piece.into()),
        }
    }
    lines
}

/// Returns the lines below the title, each with its class.
fn below_title(subtitle: &[String], timeline: &Timeline, room: f64) -> Vec<(&'static str, String)> {
    let mut lines: Vec<(&str, String)> = Vec::new();
    let pieces = subtitle.iter().map(String::as_str);
    lines.extend(wrapped(pieces, "; ", room).into_iter().map(|line| ("subtitle", line)));
    for (words, bad) in verdicts(timeline) {
        let class = if bad { "subtitle failed-text" } else { "subtitle" };
        lines.extend(wrapped(words.split(' '), " ", room).into_iter().map(|line| (class, line)));
    }
    lines
}

/// Returns a picture that stands alone. The window must lie within the run.
pub fn svg(scenario: &Scenario, window: Window) -> String {
    drawn(&scenario.run.note, &Timeline::of(scenario), window)
}

pub fn drawn(note: &[u8], timeline: &Timeline, window: Window) -> String {
    let parts = Parts::new(timeline, window);
    let Parts { layout, header_height, .. } = &parts;
    let room = NARROW.max(NAMES + parts.width());
    let (title, subtitle) = titles(note, timeline, window);
    let mut out = Svg::default();
    out.text("title", at(8.0, 17.0), &cut(&title, room - 16.0, TITLE));
    let mut y = 32.0;
    for (class, line) in below_title(&subtitle, timeline, room - 16.0) {
        out.text(class, at(8.0, y), &cut(&line, room - 16.0, WORDS));
        y += LINE;
    }
    let (head, body) = (y, y + header_height);
    out.part("header", at(NAMES, head), layout.width, *header_height, &parts.header);
    out.part("names", at(0.0, body), NAMES, layout.height, &parts.names);
    number_names(timeline, body, &mut out);
    out.part("lanes", at(NAMES, body), parts.width(), layout.height, &parts.lanes);
    let mut signs = Svg::default();
    let signs_height = legend::draw(&mut signs, &timeline.voice, room);
    let foot = body + layout.height + 8.0;
    out.part("signs", at(0.0, foot), room, signs_height, &signs.0);
    alone(room, foot + signs_height, &out.0)
}

/// Writes the names of the rows of numbers, above the lanes.
fn number_names(timeline: &Timeline, bottom: f64, svg: &mut Svg) {
    let top = bottom - header::numbers(timeline);
    for (name, down) in header::rows(timeline) {
        svg.text("row-name", at(NAMES - 8.0, top + down), name);
    }
}

fn alone(width: f64, height: f64, inside: &str) -> String {
    let (width, height) = (n(width), n(height));
    format!(
        "<svg xmlns=\"http://www.w3.org/2000/svg\" width=\"{width}\" height=\"{height}\" \
         viewBox=\"0 0 {width} {height}\">\n<style>\n{STYLE}</style>\n\
         <rect class=\"paper\" width=\"{width}\" height=\"{height}\"/>\n{inside}</svg>\n"
    )
}
