//! A3 of document 02: what holds for the latest end in the generated runs.

use model::gen::runs::run;
use model::mistakes::former::old_leases_end;
use model::rules::{LatestEnd, Papers, Rules, WriteRules};
use model::state::Machine;
use model::world::World;

/// Calls `each` for every object in every state of runs of several seeds,
/// including the fresh one.
fn each_object(mut each: impl FnMut(&World, usize)) {
    for run in [1, 5, 11, 21].into_iter().flat_map(|seed| (0..200).map(move |number| run(seed, number))) {
        let mut machine = Machine::fresh();
        let mut world = machine.world(&run.setup);
        let objects = 0..usize::from(run.setup.objects);
        objects.clone().for_each(|object| each(&world, object));
        for record in &run.steps {
            Papers.step(&mut world, record);
            objects.clone().for_each(|object| each(&world, object));
        }
    }
}

/// Returns the latest end of a write that would be accepted now.
fn latest_end(world: &World, object: usize) -> u32 {
    Papers.latest_end(world, object, Papers.to_wait_for(world, object))
}

#[test]
fn never_later_than_before_and_often_earlier() {
    let mut earlier = 0;
    each_object(|world, object| {
        let new = latest_end(world, object);
        let leases = old_leases_end(world.setup, &world.tables.server, object);
        let old = Papers.latest_end(world, object, 0).max(leases);
        assert!(new <= old, "object {object}, {:?} {:?}", world.setup, world.tables);
        earlier += usize::from(new < old);
    });
    assert!(earlier > 10_000, "{earlier}");
}

/// A client that is not waited for has a dead lease, so clock + m is past it.
#[test]
fn whoever_is_not_waited_for_does_not_count() {
    each_object(|world, object| {
        let over_all = Papers.latest_end(world, object, world.setup.all_clients());
        assert_eq!(latest_end(world, object), over_all, "object {object}, {:?}", world.tables);
    });
}
