//! Setups: the smallest, the largest, and some in between.

use crate::gen::rng::Rng;
use crate::limits::{DELAY, OBJECTS};
use crate::setup::Setup;

pub fn any(rng: &mut Rng) -> Setup {
    let (clients, volumes, objects) = match rng.below(10) {
        0 => (1, 1, 1),
        1 => (16, 8, 28),
        2 => (2, 1, 2),
        3 => (16, 1, 28),
        4 => (1, 8, 28),
        _ => (rng.range(1, 4), rng.range(1, 3), rng.range(1, 6)),
    };
    let (volume_lease, object_lease, timeout) = ticks(rng);
    let mut setup = sized(clients as u8, volumes as u8, objects as u8);
    (setup.volume_lease, setup.object_lease, setup.timeout) = (volume_lease, object_lease, timeout);
    setup.delay = delay(rng);
    for object in 0..objects as usize {
        setup.volume_of[object] = rng.below(volumes as usize) as u8;
    }
    setup
}

/// Returns a setup with all objects in volume 0 and ticks as in 01's example;
/// "01's listing has d 1 from now on".
pub fn sized(clients: u8, volumes: u8, objects: u8) -> Setup {
    Setup {
        clients,
        volumes,
        objects,
        volume_lease: 10,
        object_lease: 100,
        timeout: 3,
        delay: 1,
        volume_of: [0; OBJECTS],
    }
}

/// Returns short and long leases, either one shorter or the two close together,
/// and the ends of the ranges.
pub fn ticks(rng: &mut Rng) -> (u32, u32, u32) {
    match rng.below(11) {
        0 => (1, 1, 1),
        1 => (3_600, 1_000_000, 60),
        2 => (rng.range(20, 60), rng.range(5, 15), rng.range(1, 5)),
        3 => (rng.range(2, 10), rng.range(2, 10), rng.range(10, 60)),
        4 => (20, 20, 3),
        5 => (rng.range(6, 12), rng.range(13, 20), rng.range(1, 3)),
        _ => (rng.range(5, 15), rng.range(20, 120), rng.range(1, 5)),
    }
}

/// Returns how long a client with notes stays reachable: mostly a few ticks, so
/// that runs get past it, and the ends of the range.
pub fn delay(rng: &mut Rng) -> u32 {
    match rng.below(8) {
        0 => 1,
        1 => DELAY,
        2 => rng.range(30, 100),
        _ => rng.range(2, 12),
    }
}
