//! The lines and names of the lanes.

use super::about::About;
use super::layout::{Layout, COLUMN, ROW};
use super::letters::VALUE;
use super::svg::{at, Point, Svg, LEVEL};
use super::tiles::{Taken, Tile};

/// A lane is named again after this many columns.
const AGAIN: f64 = 24.0 * COLUMN;

/// Writes the names to the left of the lanes.
pub fn names(layout: &Layout, width: f64, svg: &mut Svg) {
    for (lane, name, y) in lanes(layout) {
        svg.name(lane, layout.reach(lane.client), |svg| svg.text("lane-name", at(8.0, y + 4.0), &name));
    }
    for (row, top) in &layout.rows {
        svg.name(About::row(*row), (*top, top + ROW), |svg| {
            svg.text("row-name", at(width - 8.0, top + 13.0), &layout.voice.said(&row.name()))
        });
    }
}

fn lanes(layout: &Layout) -> Vec<(About, String, f64)> {
    let server = (About::default(), "server".to_string(), layout.server);
    let clients = layout.clients.iter().enumerate();
    let clients = clients
        .map(|(client, y)| (About::client(client), layout.voice.said(&format!("client {client}")), *y));
    std::iter::once(server).chain(clients).collect()
}

pub fn lines(layout: &Layout, taken: &mut Taken, svg: &mut Svg) {
    for (row, top) in &layout.rows {
        let y = top + ROW;
        svg.group(About::row(*row), |svg| svg.line("row", at(0.0, y), at(layout.width, y)));
    }
    for (lane, _, y) in lanes(layout) {
        let (from, to) = (at(0.0, y), at(layout.width, y));
        taken.cross(Tile::line(from, to, 1.5));
        svg.group(lane, |svg| svg.line("lane", from, to));
    }
}

/// Writes the names of the lanes again, where there is room.
pub fn again(layout: &Layout, taken: &mut Taken, svg: &mut Svg) {
    for (lane, name, y) in lanes(layout) {
        let mut x = AGAIN;
        while x + AGAIN / 2.0 < layout.width {
            let spots = (0..24).map(|column| at(x + f64::from(column) * COLUMN / 2.0, y - 4.0));
            let tile = |spot: Point| Tile::of_words(spot, LEVEL, &name, VALUE);
            if let Some(spot) = taken.best(spots.map(|spot| (tile(spot), spot))) {
                svg.group(lane, |svg| {
                    svg.ground("ground", &tile(spot));
                    svg.text("again", spot, &name)
                });
            }
            x += AGAIN;
        }
    }
}
