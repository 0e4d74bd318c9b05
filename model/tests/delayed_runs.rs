//! A6 of document 02 along the generated runs: what holds in every state, and
//! what is reached.

use std::collections::BTreeMap;

use model::answer::Answer;
use model::gen::runs::run;
use model::message::{Kind, Message};
use model::rules::{Papers, Rules};
use model::state::Machine;
use model::step_record::{Step, CLOCK, RESTART_SERVER, WRITE};
use model::tables::{alive, Tables};
use model::world::World;

const RUNS: usize = 1_000;

/// Each of these is reached at least this often.
const FLOOR: usize = 20;

/// Takes the steps of the generated runs. `each` gets a step, its answer, the
/// state before it and the world after it.
fn each_step(mut each: impl FnMut(&Step, Answer, &Tables, &World)) {
    for number in 0..RUNS {
        let run = run(1, number);
        let mut machine = Machine::fresh();
        let mut world = machine.world(&run.setup);
        for record in &run.steps {
            let before = *world.tables;
            let answer = Papers.step(&mut world, record);
            each(record, answer, &before, &world);
        }
    }
}

/// Returns the clients that have notes, each with a volume.
fn noted<'a>(world: &'a World, tables: &'a Tables) -> impl Iterator<Item = (usize, usize)> + 'a {
    let (clients, volumes) = (usize::from(world.setup.clients), usize::from(world.setup.volumes));
    let all = (0..clients).flat_map(move |client| (0..volumes).map(move |volume| (client, volume)));
    all.filter(|&(client, volume)| tables.server.notes[volume][client] != 0)
}

/// A client with notes is reachable and shows nothing in the volume: its lease
/// there is dead on both sides. No write waits for it on a noted object, and
/// only such a client has a batch.
#[test]
fn what_holds_of_notes() {
    each_step(|_, _, _, world| {
        let (tables, server) = (&*world.tables, &world.tables.server);
        for (client, volume) in noted(world, tables) {
            assert_eq!(server.unreachable[volume] >> client & 1, 0);
            assert!(!alive(server.volume_expiry[volume][client], tables.clock));
            assert!(!alive(tables.clients.expiry[client][volume], tables.clock));
            assert!(server.batch[volume][client] <= server.seen[client]);
            let waited = |&object: &usize| server.stands(object) && world.waiting(object) >> client & 1 == 1;
            let notes = server.notes[volume][client];
            assert!(model::bits::members(notes).find(waited).is_none());
        }
        for volume in 0..usize::from(world.setup.volumes) {
            for client in 0..usize::from(world.setup.clients) {
                assert!(server.batch[volume][client] == 0 || server.notes[volume][client] != 0);
            }
        }
    });
}

/// Returns what a step did to the notes of a client that had some.
fn fate(
    step: &Step,
    answer: Answer,
    before: &Tables,
    world: &World,
    at: (usize, usize),
) -> Option<&'static str> {
    let (client, volume) = at;
    let (old, new) = (&before.server, &world.tables.server);
    let dropped = new.notes[volume][client] == 0;
    let marked = new.unreachable[volume] >> client & 1 == 1;
    let voided = old.batch[volume][client] != 0 && new.batch[volume][client] == 0;
    let about = |message: Message| usize::from(message.client) == client;
    match answer {
        Answer::Delivered { message, .. } if about(message) => match message.kind {
            Kind::Cleared(_) if dropped => Some("CLEARED counts"),
            Kind::Cleared(_) => Some("CLEARED does not count"),
            Kind::Renew { .. } if dropped => Some("OFFER drops notes"),
            Kind::Renew { .. } if old.batch[volume][client] != new.batch[volume][client] => {
                Some(if old.batch[volume][client] == 0 { "first BATCH" } else { "another BATCH" })
            }
            _ => None,
        },
        _ => match step.kind {
            CLOCK if marked && new.version != old.version => Some("marked, and writes completed"),
            CLOCK if marked => Some("marked by the clock"),
            CLOCK if world.tables.clock + 1 == old.volume_expiry[volume][client] + world.setup.delay => {
                Some("a tick before")
            }
            WRITE if voided => Some("a later note voids the batch"),
            WRITE if old.notes[volume][client] != new.notes[volume][client] => Some("a later note"),
            RESTART_SERVER => Some("lost at a restart"),
            _ => None,
        },
    }
}

#[test]
fn what_the_runs_reach() {
    let mut reached = BTreeMap::new();
    each_step(|step, answer, before, world| {
        for at in noted(world, before) {
            if let Some(name) = fate(step, answer, before, world, at) {
                *reached.entry(name).or_insert(0) += 1;
            }
        }
    });
    println!("{reached:#?}");
    assert_eq!(reached.len(), 11);
    assert!(reached.values().all(|&count| count >= FLOOR), "{reached:?}");
}
