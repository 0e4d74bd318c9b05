//! What a workload does not reach. The low k bits of the draws repeat after 2^k
//! of them, so values taken from them are tied together.

use std::collections::BTreeSet;

use model::gen::rng::Rng;
use model::gen::setups::sized;
use model::limits::{CLIENTS, OBJECTS, QUEUE, STEPS};
use model::step_record::*;
use model::workload::steps;

/// Returns the reads and asks of many workloads: client with object.
fn pairs(clients: u8, objects: u8) -> BTreeSet<(u8, u8)> {
    let mut rng = Rng::new(u64::from(clients) << 8 | u64::from(objects));
    let mut load = || steps(rng.draw() as u32, &sized(clients, 1, objects), STEPS).unwrap();
    let both = |step: &Step| [READ, ASK].contains(&step.kind);
    let all = (0..20).flat_map(|_| load()).filter(both);
    all.map(|step| (step.client, step.object)).collect()
}

/// Returns the greatest power of two that divides both.
fn shared(clients: u8, objects: u8) -> u32 {
    1 << clients.trailing_zeros().min(objects.trailing_zeros())
}

/// Modulo the shared power of two the object is 13 × client + 15, since it is
/// drawn right after the client; nothing else is tied.
#[test]
fn the_pairs_reached_are_those_of_the_shared_power_of_two() {
    for clients in 1..=CLIENTS as u8 {
        for objects in 1..=OBJECTS as u8 {
            let shared = shared(clients, objects);
            let tied =
                |client: u8, object: u8| (13 * u32::from(client) + 15) % shared == u32::from(object) % shared;
            let all = (0..clients).flat_map(|client| (0..objects).map(move |object| (client, object)));
            let expected: BTreeSet<_> = all.filter(|&(client, object)| tied(client, object)).collect();
            assert_eq!(pairs(clients, objects), expected, "{clients} clients, {objects} objects");
        }
    }
}

/// If the object count is a power of two and divides the client count, every
/// client has one object; with 3 clients each has all four.
#[test]
fn the_object_is_a_function_of_the_client() {
    for (clients, objects) in [(2, 2), (4, 4), (8, 8), (16, 16), (8, 4), (16, 8), (6, 2), (12, 4)] {
        assert_eq!(pairs(clients, objects).len(), usize::from(clients), "{clients} and {objects}");
    }
    assert_eq!(pairs(3, 4).len(), 12);
    assert_eq!(pairs(4, 4).into_iter().collect::<Vec<_>>(), [(0, 3), (1, 0), (2, 1), (3, 2)]);
}

/// Returns the values that a field takes in the steps whose number leaves each
/// remainder by the field's count; steps count from 0.
fn by_remainder(steps: &[Step], users: &[u8], count: usize, field: fn(&Step) -> u8) -> Vec<BTreeSet<u8>> {
    let mut values = vec![BTreeSet::new(); count];
    for (number, step) in steps.iter().enumerate().filter(|(_, step)| users.contains(&step.kind)) {
        values[number % count].insert(field(step));
    }
    values
}

/// A count that is a power of two goes through all its values in a fixed order
/// and starts again: place 0 comes only in every 64th step.
#[test]
fn each_field_of_a_power_of_two_repeats_with_the_steps() {
    let mut rng = Rng::new(5);
    for (clients, objects) in [(2, 2), (4, 8), (8, 16), (16, 16)] {
        let steps = steps(rng.draw() as u32, &sized(clients, 1, objects), STEPS).unwrap();
        for values in [
            by_remainder(&steps, &[READ, ASK, RESTART_CLIENT], clients.into(), |step| step.client),
            by_remainder(&steps, &[READ, ASK, WRITE], objects.into(), |step| step.object),
            by_remainder(&steps, &[DELIVER, LOSE, DOUBLE], QUEUE, |step| step.place),
        ] {
            assert!(values.iter().all(|values| values.len() == 1), "one value for each remainder");
            assert_eq!(values.iter().flatten().collect::<BTreeSet<_>>().len(), values.len());
        }
    }
}

/// Kind and amount are taken by odd numbers and are tied to nothing: every kind
/// meets every value of its fields.
#[test]
fn every_kind_meets_every_value() {
    let mut rng = Rng::new(6);
    let mut load = || steps(rng.draw() as u32, &sized(16, 1, 16), STEPS).unwrap();
    let met: BTreeSet<_> =
        (0..40).flat_map(|_| load()).filter(|step| step.kind != CLOCK).map(fields).collect();
    let mut counts = [0; 10];
    met.iter().for_each(|step| counts[usize::from(step.0)] += 1);
    assert_eq!(counts[READ as usize..], [16, 16, 16 * 5, 64, 64, 64, 1, 16]);
}

fn fields(step: Step) -> (u8, u8, u8, u8, u64) {
    (step.kind, step.client, step.object, step.place, step.value)
}
