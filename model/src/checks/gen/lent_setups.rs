//! Setups in bytes, as a caller lends them: 48 bytes in range, and others.

use crate::gen::rng::Rng;
use crate::gen::setups::{any, sized};
use crate::limits::{CLIENTS, DELAY, OBJECTS, OBJECT_LEASE, TIMEOUT, VOLUMES, VOLUME_LEASE};
use crate::setup::Setup;
use crate::unchecked_writer::setup_bytes;

pub fn good(rng: &mut Rng) -> Vec<u8> {
    setup_bytes(&any(rng))
}

/// Returns setups with every field at one end of its range.
pub fn ends() -> [Vec<u8>; 2] {
    let (volume_lease, object_lease, timeout) = (VOLUME_LEASE, OBJECT_LEASE, TIMEOUT);
    let volume_of = [VOLUMES as u8 - 1; OBJECTS];
    let largest = sized(CLIENTS as u8, VOLUMES as u8, OBJECTS as u8);
    let largest = Setup { volume_lease, object_lease, timeout, delay: DELAY, volume_of, ..largest };
    let smallest = Setup { volume_lease: 1, object_lease: 1, timeout: 1, ..sized(1, 1, 1) };
    [setup_bytes(&smallest), setup_bytes(&largest)]
}

/// Returns setups with one thing wrong: the length, the fourth byte or one
/// field.
pub fn bad(rng: &mut Rng) -> Vec<Vec<u8>> {
    let good = good(rng);
    let mut bad: Vec<_> = [0, 1, 16, 47].map(|len| good[..len].to_vec()).into();
    bad.extend([1, 48].map(|more| [&good[..], &vec![0; more]].concat()));
    for spare in [1, 128, 255] {
        let mut setup = good.clone();
        setup[3] = spare;
        bad.push(setup);
    }
    bad.extend(out_of_range(rng).iter().map(setup_bytes));
    bad
}

fn out_of_range(rng: &mut Rng) -> Vec<Setup> {
    let good = sized(rng.range(1, 16) as u8, rng.range(2, 8) as u8, rng.range(1, 27) as u8);
    let changed = |change: &fn(&mut Setup)| {
        let mut setup = good;
        change(&mut setup);
        setup
    };
    OUT_OF_RANGE.iter().map(changed).collect()
}

/// Each field past each end of its range. A volume past the object count is not
/// 0 but exists.
const OUT_OF_RANGE: [fn(&mut Setup); 26] = [
    |s| s.clients = 0,
    |s| s.clients = 17,
    |s| s.clients = 255,
    |s| s.volumes = 0,
    |s| s.volumes = 9,
    |s| s.volumes = 255,
    |s| s.objects = 0,
    |s| s.objects = 29,
    |s| s.objects = 32,
    |s| s.objects = 255,
    |s| s.volume_lease = 0,
    |s| s.volume_lease = 3_601,
    |s| s.volume_lease = u32::MAX,
    |s| s.object_lease = 0,
    |s| s.object_lease = 1_000_001,
    |s| s.object_lease = u32::MAX,
    |s| s.timeout = 0,
    |s| s.timeout = 61,
    |s| s.timeout = u32::MAX,
    |s| s.delay = 0,
    |s| s.delay = 65_536,
    |s| s.delay = u32::MAX,
    |s| s.volume_of[0] = s.volumes,
    |s| s.volume_of[usize::from(s.objects) - 1] = s.volumes,
    |s| s.volume_of[usize::from(s.objects)] = 1,
    |s| s.volume_of[OBJECTS - 1] = 1,
];
