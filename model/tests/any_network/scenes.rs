//! Scenes, each aimed at one wrong rule: a short script, played in disorder.

use model::gen::builder::{ACK, INVALIDATE};
use model::gen::rng::Rng;
use model::gen::setups::sized;
use model::mistakes::Mistakes;
use model::setup::Setup;

use crate::stage::Stage;
use crate::watched::Watched;
use crate::{random_moves, scenes_answers, scenes_notes, scenes_requests, scenes_traps};

pub struct Scene {
    /// The wrong rule that the scene finds.
    pub mistake: &'static str,
    /// Volume lease, object lease and timeout.
    pub ticks: fn(&mut Rng) -> (u32, u32, u32),
    pub play: fn(&mut Stage, Cast) -> Option<()>,
}

/// Whom a scene is about: a client, and two objects of one volume.
#[derive(Clone, Copy)]
pub struct Cast {
    pub client: u8,
    pub object: u8,
    pub other: u8,
}

pub fn all() -> impl Iterator<Item = &'static Scene> {
    [scenes_traps::SCENES, scenes_requests::SCENES, scenes_answers::SCENES, scenes_notes::SCENES]
        .into_iter()
        .flatten()
}

impl Scene {
    /// Plays the scene under these rules, with the setup, the moves before it
    /// and the moves in between from this seed.
    pub fn run(&self, rules: Mistakes, seed: u64) -> Watched {
        let mut rng = Rng::new(seed);
        let setup = self.setup(&mut rng);
        let mut stage = Stage::new(rng, rules, setup);
        let before = stage.rng.pick(&[0, 10, 40, 80]);
        random_moves::take(&mut stage, before);
        stage.settle();
        let (client, object) = (stage.any_client(), stage.rng.below(2) as u8);
        (stage.noise, stage.spared) = (stage.rng.pick(&[0, 15, 40]), Some(client));
        let cast = Cast { client, object, other: 1 - object };
        // If the moves in between take a message away, the scene just ends.
        let _ = (self.play)(&mut stage, cast);
        stage.run
    }

    /// Returns a setup. Objects 0 and 1 are always in one volume.
    fn setup(&self, rng: &mut Rng) -> Setup {
        let (clients, volumes) = (rng.pick(&[2, 3, 16]), rng.pick(&[1, 2]));
        let mut setup = sized(clients, volumes, rng.range(2, 5) as u8);
        (setup.volume_lease, setup.object_lease, setup.timeout) = (self.ticks)(rng);
        for object in 2..usize::from(setup.objects) {
            setup.volume_of[object] = rng.below(volumes.into()) as u8;
        }
        setup
    }
}

/// Returns object leases that outlast several volume leases.
pub fn long_copies(rng: &mut Rng) -> (u32, u32, u32) {
    (rng.range(8, 20), rng.range(60, 120), rng.range(1, 5))
}

/// Returns object leases that end before their volume's.
pub fn short_copies(rng: &mut Rng) -> (u32, u32, u32) {
    (rng.range(25, 40), rng.range(8, 12), rng.range(1, 3))
}

/// Ends a write of the object by the client's ACK.
pub fn acknowledged_write(s: &mut Stage, client: u8, object: u8) -> Option<()> {
    s.write(object);
    s.arrive_newest(client, INVALIDATE)?;
    s.arrive_newest(client, ACK)?;
    Some(())
}

/// Leaves the client marked unreachable while its volume lease and its lease on
/// the other object are alive: the write that marked it ended with the lease on
/// its own object. Needs short copies.
pub fn marked_with_a_live_volume(s: &mut Stage, Cast { client, object, other }: Cast) -> Option<()> {
    s.hold(client, object)?;
    let expiry = s.server().object_expiry[usize::from(object)][usize::from(client)];
    s.clock(expiry.saturating_sub(2));
    s.hold(client, other)?;
    s.write(object);
    s.clock(s.latest_end(object) + 1);
    Some(())
}
