//! Keeps track of which room in the lanes is taken, so that no two labels
//! overlap, and which has lines and bars, which labels leave visible if they
//! can.

use std::collections::BTreeMap;
use std::ops::RangeInclusive;

use super::letters::{width, ABOVE, BELOW};
use super::svg::{at, Point, LEVEL};

/// Tiles are looked up in cells of this size.
const CELL: f64 = 64.0;

/// Spots for words are tried this far apart, and this many of them.
const APART: f64 = 4.0;
const TRIES: u32 = 60;

/// Returns how far to move words for each try, within the room that they leave.
pub fn tries(room: f64) -> impl Iterator<Item = f64> {
    (0..TRIES).map(|n| f64::from(n) * APART).take_while(move |&far| far <= room)
}

/// A rectangle that may be turned: its middle, the unit vector along it, and
/// how far it reaches from the middle along that vector and across.
#[derive(Clone, Copy)]
pub struct Tile {
    middle: Point,
    pub way: Point,
    along: f64,
    across: f64,
}

impl Tile {
    pub fn level(a: Point, b: Point) -> Tile {
        let middle = at((a.x + b.x) / 2.0, (a.y + b.y) / 2.0);
        Tile { middle, way: LEVEL, along: (b.x - a.x) / 2.0, across: (b.y - a.y) / 2.0 }
    }

    /// Returns a square around a point.
    pub fn around(middle: Point, reach: f64) -> Tile {
        Tile { middle, way: LEVEL, along: reach, across: reach }
    }

    /// Returns a line of this width.
    pub fn line(a: Point, b: Point, width: f64) -> Tile {
        let (x, y) = (b.x - a.x, b.y - a.y);
        let length = (x * x + y * y).sqrt();
        let way = if length > 0.0 { at(x / length, y / length) } else { LEVEL };
        let middle = at((a.x + b.x) / 2.0, (a.y + b.y) / 2.0);
        Tile { middle, way, along: length / 2.0, across: width / 2.0 }
    }

    /// Returns the room of words that begin at a point and go in a direction,
    /// with a little room before and after them.
    pub fn of_words(from: Point, way: Point, words: &str, size: f64) -> Tile {
        let along = width(words, size) / 2.0;
        let (up, across) = ((ABOVE - BELOW) / 2.0 * size, (ABOVE + BELOW) / 2.0 * size);
        let middle = at(from.x + along * way.x + up * way.y, from.y + along * way.y - up * way.x);
        Tile { middle, way, along: along + 0.5, across }
    }

    /// Returns the room of words around the middle of a step's column.
    pub fn of_centered(middle: Point, words: &str, size: f64) -> Tile {
        let from = at(middle.x - width(words, size) / 2.0, middle.y);
        Tile::of_words(from, LEVEL, words, size)
    }

    /// Returns the corner around which it is turned, and its width and height.
    pub fn unturned(&self) -> (Point, f64, f64) {
        let Point { x, y } = self.middle;
        let corner = at(
            x - self.along * self.way.x + self.across * self.way.y,
            y - self.along * self.way.y - self.across * self.way.x,
        );
        (corner, 2.0 * self.along, 2.0 * self.across)
    }

    /// Returns how far it reaches from its middle in a direction.
    fn reach(&self, way: Point) -> f64 {
        let (along, across) = (dot(self.way, way), self.way.x * way.y - self.way.y * way.x);
        self.along * along.abs() + self.across * across.abs()
    }

    /// Returns whether two rectangles overlap: they are apart if a side of one
    /// of them separates them.
    fn meets(&self, other: &Tile) -> bool {
        let between = at(other.middle.x - self.middle.x, other.middle.y - self.middle.y);
        let sides = [self.way, at(-self.way.y, self.way.x), other.way, at(-other.way.y, other.way.x)];
        sides.iter().all(|&side| dot(between, side).abs() < self.reach(side) + other.reach(side))
    }

    pub fn within(&self, width: f64, height: f64) -> bool {
        let Point { x, y } = self.middle;
        let (wide, high) = (self.reach(at(1.0, 0.0)), self.reach(at(0.0, 1.0)));
        x - wide >= 0.0 && x + wide <= width && y - high >= 0.0 && y + high <= height
    }

    fn cells(&self) -> impl Iterator<Item = (i64, i64)> {
        let cells = |middle: f64, reach: f64| -> RangeInclusive<i64> {
            let cell = |place: f64| (place / CELL).floor() as i64;
            cell(middle - reach)..=cell(middle + reach)
        };
        let down = cells(self.middle.y, self.reach(at(0.0, 1.0)));
        let across = cells(self.middle.x, self.reach(at(1.0, 0.0)));
        across.flat_map(move |x| down.clone().map(move |y| (x, y)))
    }

    /// Returns pieces of it, none longer than a cell.
    fn pieces(&self) -> impl Iterator<Item = Tile> + '_ {
        let count = (2.0 * self.along / CELL).ceil().max(1.0);
        let along = self.along / count;
        (0..count as usize).map(move |piece| {
            let far = (2.0 * piece as f64 + 1.0) * along - self.along;
            let middle = at(self.middle.x + far * self.way.x, self.middle.y + far * self.way.y);
            Tile { middle, along, ..*self }
        })
    }
}

fn dot(a: Point, b: Point) -> f64 {
    a.x * b.x + a.y * b.y
}

#[derive(Default)]
struct Tiles(BTreeMap<(i64, i64), Vec<Tile>>);

impl Tiles {
    fn add(&mut self, tile: &Tile) {
        for piece in tile.pieces() {
            for cell in piece.cells() {
                self.0.entry(cell).or_default().push(piece);
            }
        }
    }

    fn met<'a>(&'a self, tile: &'a Tile) -> impl Iterator<Item = &'a Tile> + 'a {
        let near = tile.cells().filter_map(|cell| self.0.get(&cell)).flatten();
        near.filter(|other| tile.meets(other))
    }
}

#[derive(Default)]
pub struct Taken {
    taken: Tiles,
    crossed: Tiles,
}

impl Taken {
    /// Takes the room of a label, or of what no label may hide.
    pub fn take(&mut self, tile: Tile) {
        self.taken.add(&tile);
    }

    /// Adds a line or a bar, which labels may cross if there is no other room.
    pub fn cross(&mut self, tile: Tile) {
        self.crossed.add(&tile);
    }

    fn free(&self, tile: &Tile) -> bool {
        self.taken.met(tile).next().is_none()
    }

    /// Takes the first free spot, whatever crosses it.
    pub fn first<T>(&mut self, mut spots: impl Iterator<Item = (Tile, T)>) -> Option<T> {
        let (tile, spot) = spots.find(|(tile, _)| self.free(tile))?;
        self.take(tile);
        Some(spot)
    }

    /// Takes the first free spot that crosses nothing, or else the one that
    /// crosses the least.
    pub fn best<T>(&mut self, spots: impl Iterator<Item = (Tile, T)>) -> Option<T> {
        let mut best: Option<(usize, Tile, T)> = None;
        for (tile, spot) in spots {
            let most = best.as_ref().map_or(usize::MAX, |(crossed, ..)| *crossed);
            let crossed = self.crossed.met(&tile).take(most).count();
            if crossed < most && self.free(&tile) {
                best = Some((crossed, tile, spot));
                if crossed == 0 {
                    break;
                }
            }
        }
        let (_, tile, spot) = best?;
        self.take(tile);
        Some(spot)
    }
}
