//! The legend: what the marks mean, in as many rows as the width needs.

use super::letters::{width, WORDS};
use super::marks::{flag, gap};
use super::svg::{at, Svg};
use crate::voice::Voice;

pub const ROW: f64 = 20.0;
pub const SIGN: f64 = 34.0;

/// Draws a sign in the room from x on, around the middle line y.
type Sign = fn(&mut Svg, f64, f64);

const SIGNS: [(&str, Sign); 27] = [
    ("ask", |svg, x, y| svg.circle("asked", at(x + 14.0, y), 3.0)),
    ("read shown, with its value", |svg, x, y| svg.circle("shown", at(x + 14.0, y), 6.0)),
    ("ask first", |svg, x, y| {
        svg.circle("ask-first", at(x + 14.0, y), 6.0);
        svg.text("question", at(x + 14.0, y + 3.2), "?");
    }),
    ("refused, with its number", |svg, x, y| svg.cross("refused", at(x + 14.0, y), 5.5)),
    ("column of a failed expectation", |svg, x, y| svg.rect("failure", at(x, y - 7.0), 28.0, 14.0)),
    ("column of a clock step: time passes", |svg, x, y| svg.rect("time", at(x, y - 7.0), 28.0, 14.0)),
    ("restart", |svg, x, y| svg.line("restart", at(x + 14.0, y - 7.0), at(x + 14.0, y + 7.0))),
    ("save, with its name", |svg, x, y| {
        svg.line("save", at(x + 14.0, y - 10.0), at(x + 14.0, y + 10.0));
        svg.shape("saved", &flag(at(x + 14.0, y)));
    }),
    ("return: all lanes begin anew with what was saved", |svg, x, y| gap(svg, at(x + 14.0, y - 9.0), 18.0)),
    ("steps left behind by a return", |svg, x, y| svg.rect("left-behind", at(x, y - 7.0), 28.0, 14.0)),
    ("volume lease of the client", |svg, x, y| svg.rect("volume-lease", at(x, y - 5.5), 28.0, 11.0)),
    ("object lease of the client", |svg, x, y| svg.rect("object-lease", at(x, y - 5.5), 28.0, 11.0)),
    ("copy held", |svg, x, y| svg.line("copy", at(x, y), at(x + 28.0, y))),
    ("the same lease as the server records it", |svg, x, y| svg.rect("recorded", at(x, y - 1.0), 28.0, 2.0)),
    ("server's notes for the client: objects written while it was parked", |svg, x, y| {
        svg.rect("notes", at(x, y - 5.5), 28.0, 11.0)
    }),
    ("marked unreachable", |svg, x, y| svg.line("unreachable", at(x, y), at(x + 28.0, y))),
    ("guard after a restart of the server", |svg, x, y| svg.rect("guard", at(x, y - 5.5), 28.0, 11.0)),
    ("write, from acceptance; red: its latest end", |svg, x, y| {
        svg.line("drop", at(x + 4.0, y), at(x + 4.0, y + 6.0));
        svg.rect("accepted", at(x, y + 3.0), 8.0, 6.0);
        svg.rect("write", at(x + 4.0, y - 8.0), 24.0, 11.0);
        svg.line("latest", at(x + 21.0, y - 9.0), at(x + 21.0, y + 5.0));
    }),
    ("write completed, then a line up to its latest end", |svg, x, y| {
        svg.rect("write", at(x, y - 5.5), 8.0, 11.0);
        svg.shape("completed", &[at(x + 8.0, y - 5.5), at(x + 14.0, y), at(x + 8.0, y + 5.5)]);
        svg.line("latest-rest", at(x + 8.0, y), at(x + 27.0, y));
        svg.line("latest", at(x + 27.0, y - 7.5), at(x + 27.0, y + 7.5));
    }),
    ("write cut off by a restart", |svg, x, y| svg.rect("write cut-off", at(x, y - 5.5), 28.0, 11.0)),
    ("message, received", |svg, x, y| received(svg, "ack", x, y)),
    ("BATCH: notes sent to the client", |svg, x, y| received(svg, "batch", x, y)),
    ("CLEARED: the client has erased these copies", |svg, x, y| received(svg, "cleared", x, y)),
    ("message lost, with its receiver", |svg, x, y| {
        svg.line("arrow invalidate lost", at(x, y), at(x + 22.0, y));
        svg.cross("lost-mark", at(x + 22.0, y), 4.5);
    }),
    ("message doubled: its copy", |svg, x, y| {
        svg.shape("doubled grant", &[at(x, y), at(x + 5.0, y - 5.0), at(x + 10.0, y), at(x + 5.0, y + 5.0)]);
        svg.line("arrow grant copied", at(x + 10.0, y), at(x + 28.0, y));
    }),
    ("still under way, with its place in the queue", |svg, x, y| {
        svg.line("arrow renew", at(x, y), at(x + 22.0, y));
        svg.circle("under-way renew", at(x + 25.0, y), 3.0);
    }),
    ("under way when a return came; under way again after it", |svg, x, y| {
        svg.line("arrow renew", at(x, y), at(x + 7.0, y));
        svg.circle("left-under-way renew", at(x + 7.0, y), 3.0);
        gap(svg, at(x + 14.0, y - 9.0), 18.0);
        svg.line("arrow renew", at(x + 21.0, y), at(x + 28.0, y));
        svg.circle("under-way-again renew", at(x + 21.0, y), 3.0);
    }),
];

/// Draws the arrow of a message of this kind.
fn received(svg: &mut Svg, kind: &str, x: f64, y: f64) {
    svg.line(&format!("arrow {kind}"), at(x, y), at(x + 24.0, y));
    let corners = [at(x + 28.0, y), at(x + 19.0, y - 3.4), at(x + 19.0, y + 3.4)];
    svg.shape(&format!("head {kind}"), &corners);
}

/// Returns the words of each sign, and the sign by itself.
pub fn signs(voice: &Voice) -> impl Iterator<Item = (String, String)> + '_ {
    SIGNS.iter().map(|(words, sign)| {
        let mut svg = Svg::default();
        sign(&mut svg, 2.0, ROW / 2.0);
        (voice.said(words), svg.0)
    })
}

/// Draws the legend and returns its height.
pub fn draw(svg: &mut Svg, voice: &Voice, room: f64) -> f64 {
    let (mut x, mut y) = (8.0, ROW / 2.0);
    for (words, sign) in SIGNS {
        let words = voice.said(words);
        let needed = SIGN + width(&words, WORDS) + 18.0;
        if x + needed > room && x > 8.0 {
            (x, y) = (8.0, y + ROW);
        }
        sign(svg, x, y);
        svg.text("legend", at(x + SIGN, y + 3.5), &words);
        x += needed;
    }
    y + ROW / 2.0 + 4.0
}
