//! Undoes a part of what a rule changes.

use crate::world::World;

/// Applies the rule, then restores the part.
pub fn keeping<T: Copy>(
    world: &mut World,
    part: impl for<'a> Fn(&'a mut World) -> &'a mut T,
    rule: impl FnOnce(&mut World),
) {
    let kept = *part(world);
    rule(world);
    *part(world) = kept;
}

/// Applies the rule, then takes back what it sent.
pub fn unsent(world: &mut World, rule: impl FnOnce(&mut World)) {
    let len = world.tables.queue.len;
    rule(world);
    world.tables.queue.len = len;
}
