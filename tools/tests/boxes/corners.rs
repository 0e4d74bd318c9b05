//! Convex areas, given by their corners in turn.

pub type Corner = (f64, f64);

pub fn bounds(corners: &[Corner]) -> (Corner, Corner) {
    let ends = ((f64::INFINITY, f64::INFINITY), (f64::NEG_INFINITY, f64::NEG_INFINITY));
    corners.iter().fold(ends, |(low, high), corner| {
        ((low.0.min(corner.0), low.1.min(corner.1)), (high.0.max(corner.0), high.1.max(corner.1)))
    })
}

/// Returns whether the two overlap: no side of either separates them.
pub fn meet(one: &[Corner], other: &[Corner]) -> bool {
    let parted = |sides: &[Corner]| {
        (0..sides.len()).any(|side| {
            let (a, b) = (sides[side], sides[(side + 1) % sides.len()]);
            let normal = (a.1 - b.1, b.0 - a.0);
            let (one, two) = (reach(one, normal), reach(other, normal));
            one.1 <= two.0 || two.1 <= one.0
        })
    };
    !parted(one) && !parted(other)
}

fn reach(corners: &[Corner], way: Corner) -> (f64, f64) {
    let along = corners.iter().map(|corner| corner.0 * way.0 + corner.1 * way.1);
    along.fold((f64::INFINITY, f64::NEG_INFINITY), |(low, high), at| (low.min(at), high.max(at)))
}

/// Returns whether a point lies inside, or outside by no more than pictures are
/// rounded.
pub fn holds(room: &[Corner], point: Corner) -> bool {
    let sides = (0..room.len()).map(|side| {
        let (a, b) = (room[side], room[(side + 1) % room.len()]);
        let (x, y) = (b.0 - a.0, b.1 - a.1);
        ((point.1 - a.1) * x - (point.0 - a.0) * y) / x.hypot(y)
    });
    let sides: Vec<f64> = sides.collect();
    sides.iter().all(|&far| far >= -0.1) || sides.iter().all(|&far| far <= 0.1)
}
