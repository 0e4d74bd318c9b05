//! The labels of arrows, along them and at their ends. Each has a ground of its
//! own: what has to cross it runs behind it.

use super::about::About;
use super::arrows::LONG;
use super::layout::Layout;
use super::letters::{width, LABEL};
use super::paths::{Path, Shown};
use super::svg::{at, Point, Svg, LEVEL};
use super::tiles::{tries, Taken, Tile};
use super::words::{addressed, anonymous, flight_title, receiver};
use crate::names;
use crate::timeline::flights::{End, Flight};
use crate::timeline::Timeline;

/// From the line to the words above it and below it.
const SIDES: [f64; 2] = [-3.0, 9.5];

/// Keeps room at the end of each message for the words that may have to stand
/// there.
pub fn reserve(layout: &Layout, shown: &[Shown], taken: &mut Taken) {
    shown.iter().filter_map(|one| at_end(layout, one)).for_each(|label| taken.take(label.tile()));
}

pub fn draw(timeline: &Timeline, layout: &Layout, shown: &[Shown], taken: &mut Taken, svg: &mut Svg) {
    for one in shown {
        let (mut labels, named) = along(layout, taken, one);
        labels.extend(at_end(layout, one).filter(|_| !named || !arrives(layout, one)));
        if labels.is_empty() {
            continue;
        }
        let class = format!("message {}", names::kind(&one.flight.message.kind).to_lowercase());
        svg.of_flight(
            one.place,
            &flight_title(timeline, one.flight),
            About::message(&one.flight.message),
            |svg| {
                labels.iter().for_each(|label| label.draw(svg, &class));
            },
        );
    }
}

/// Words that begin at a point and go in a direction.
struct Label {
    from: Point,
    way: Point,
    words: String,
}

impl Label {
    fn tile(&self) -> Tile {
        Tile::of_words(self.from, self.way, &self.words, LABEL)
    }

    fn draw(&self, svg: &mut Svg, class: &str) {
        svg.ground("ground", &self.tile());
        match self.way {
            LEVEL => svg.text(class, self.from, &self.words),
            way => svg.text_along(class, self.from, way, &self.words),
        }
    }
}

/// Returns labels along the line, from its beginning on, with a long one named
/// once more towards its end; and whether the receiver is named.
fn along(layout: &Layout, taken: &mut Taken, one: &Shown) -> (Vec<Label>, bool) {
    let visible = one.path.between(0.0, layout.width);
    let mut put = |wordings: Vec<String>, back: bool| {
        let spots = wordings.into_iter().flat_map(|words| spots(layout, &visible, words, back));
        taken.best(spots)
    };
    let addressed = addressed(&layout.voice, &one.flight.message);
    let mut labels: Vec<Label> = put(addressed.clone(), false).into_iter().collect();
    let named = !labels.is_empty();
    if !named {
        labels.extend(put(anonymous(&layout.voice, &one.flight.message), false));
    }
    if visible.to.x - visible.from.x > LONG {
        labels.extend(put(addressed, true));
    }
    (labels, named)
}

/// Returns where the words may stand along the path, the best spot first.
fn spots<'a>(
    layout: &'a Layout,
    path: &'a Path,
    words: String,
    back: bool,
) -> impl Iterator<Item = (Tile, Label)> + 'a {
    let (way, room) = (path.way(), path.length() - 20.0 - width(&words, LABEL));
    let spots = tries(room).flat_map(move |far| {
        let spot = path.along(8.0 + if back { room - far } else { far });
        SIDES.map(|side| at(spot.x - side * way.y, spot.y + side * way.x))
    });
    let labels = spots.map(move |from| Label { from, way, words: words.clone() });
    let inside = labels.map(|label| (label.tile(), label));
    inside.filter(|(tile, _)| tile.within(layout.width, layout.height))
}

/// Returns the receiver's name if the flight ends in the window, or the whole
/// label on the right.
fn at_end(layout: &Layout, one: &Shown) -> Option<Label> {
    if let Some((ring, words)) = layout.queue.get(&one.place) {
        return Some(Label { from: at(ring.x + 7.0, ring.y + 3.0), way: LEVEL, words: words.clone() });
    }
    let (middle, words) = (name_at_end(layout, one.flight)?, receiver(&layout.voice, &one.flight.message));
    let from = at(middle.x - width(&words, LABEL) / 2.0, middle.y);
    Some(Label { from, way: LEVEL, words })
}

/// Returns a point beside the receiver's line, in the column of the step that
/// ended the flight. A return leaves any number of them, all in one column.
fn name_at_end(layout: &Layout, flight: &Flight) -> Option<Point> {
    let step = match flight.end {
        End::Delivered(step) | End::Lost(step) => step,
        End::QueueFull => flight.sent,
        End::UnderWay | End::Left(_) => return None,
    };
    let (_, receiver) = layout.ends(&flight.message);
    layout.window.holds(step).then(|| at(layout.x(step), layout.beside(receiver)))
}

/// Returns whether the message arrives. One that does not has its receiver's
/// name at its end; one that does, only if there was no room along the arrow.
fn arrives(layout: &Layout, one: &Shown) -> bool {
    matches!(one.flight.end, End::Delivered(_)) && !layout.queue.contains_key(&one.place)
}
