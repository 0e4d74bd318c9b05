//! Notes: none, short, of odd length, and as long as the file allows.

use crate::gen::rng::Rng;
use crate::limits::FILE_BYTES;
use crate::runfile::distance;

pub fn any(rng: &mut Rng, steps: usize) -> Vec<u8> {
    let room = FILE_BYTES - distance(steps);
    let len = match rng.below(10) {
        0..=3 => 0,
        4..=6 => 1 + 2 * rng.below(20),
        7 => 16 * rng.below(10),
        8 => rng.below(700),
        _ if rng.percent(10) => room,
        _ => rng.below(60),
    };
    (0..len.min(room)).map(|_| rng.draw() as u8).collect()
}
