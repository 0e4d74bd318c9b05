//! Random steps, weighted so that things happen, with clock steps that aim at
//! the next edges.

use crate::gen::builder::Builder;
use crate::gen::rng::Rng;
use crate::gen::scenes::Scene;
use crate::limits::CLOCK_MAX;
use crate::step_record::Step;
use crate::tables::Tables;

pub const SCENES: &[Scene] = &[a_few];

fn a_few(b: &mut Builder) {
    let count = b.rng.range(5, 60);
    take(b, count as usize);
}

pub fn take(b: &mut Builder, count: usize) {
    for _ in 0..count {
        if b.full() {
            return;
        }
        let step = any(b);
        b.push(step);
    }
}

/// Returns a step of any kind, for the state that the steps so far led to.
pub fn any(b: &mut Builder) -> Step {
    let (client, object) = (b.any_client(), b.any_object());
    let place = place(b);
    match b.rng.below(100) {
        0..=18 => Step::read(client, object),
        19 => saved(b),
        20..=39 => Step::ask(client, object),
        40..=69 => Step::deliver(place),
        70..=74 => Step::lose(place),
        75..=79 => Step::double(place),
        80..=87 => Step::write(object, b.rng.draw() >> 48),
        88..=95 => Step::clock(time(&mut b.rng, &b.state.tables)),
        96 => Step::restart_server(),
        97 => Step::restart_client(client),
        98 => Step { kind: b.rng.draw() as u8, ..Step::default() },
        _ => Step::read(client.wrapping_add(b.rng.draw() as u8), object),
    }
}

/// Returns a save or a return, seldom with a name that does not exist.
fn saved(b: &mut Builder) -> Step {
    let name = if b.rng.percent(90) { b.any_name() } else { b.rng.draw() as u8 };
    b.rng.pick(&[Step::save, Step::return_to])(name)
}

/// Returns mostly the front or the end of the list, sometimes a place past it.
fn place(b: &mut Builder) -> u8 {
    let len = b.queue_len();
    match b.rng.below(10) {
        0..=4 => 0,
        5 => len as u8,
        6 | 7 => len.saturating_sub(1) as u8,
        _ => b.rng.below(len.max(1)) as u8,
    }
}

/// Returns an edge ahead of the clock, or a time a few ticks on. At VE and OE
/// the leases given last end.
pub fn time(rng: &mut Rng, tables: &Tables) -> u32 {
    let (clock, server) = (tables.clock, &tables.server);
    let ends = server.write.iter().map(|write| write.latest_end);
    let guards = server.guard.iter().copied();
    let volumes = server.volume_latest.iter().copied();
    let objects = server.object_latest.iter().copied();
    let ahead: Vec<u32> =
        ends.chain(guards).chain(volumes).chain(objects).filter(|&edge| edge >= clock && edge > 0).collect();
    match rng.below(10) {
        0..=4 if !ahead.is_empty() => {
            let edge = rng.pick(&ahead);
            (edge + rng.range(0, 2)).saturating_sub(1).min(CLOCK_MAX)
        }
        5 => clock,
        6 => clock.saturating_sub(1),
        _ => clock.saturating_add(rng.range(0, 5)),
    }
}
